"""Makes the pictures of docs/pictures: python3 -m tools.pictures.make.

With --check it names those that are otherwise.
"""

import sys

from tools.month import blocks, picture

from . import charts, crossing, forged, move_list, states, tablet

FOLDER = move_list.LIST.parent
# What `bench month` prints of the example's files, which the tests repeat.
MONTH = FOLDER.parents[1] / "examples/month/lines"


def month():
    printed = MONTH.read_bytes()
    names = [line[5:] for line in printed.decode().splitlines() if line.startswith("file ")]
    return picture.draw(names, *blocks.read(printed, names))


def pictures():
    """The text of each picture by its file's name; a fault where words would overlap."""
    lines = move_list.read()
    canvases = {f"states_{name.replace('-', '_')}": states.picture(role, lines)
                for name, role in move_list.ROLES.items()}
    canvases |= {"join": charts.join(), "comeback": charts.comeback(),
                 "forged_rejoin": forged.forged_rejoin(), "crossing": crossing.crossing(),
                 "tablet": tablet.tablet(), "month": month()}
    for name, canvas in canvases.items():
        if canvas.faults():
            raise move_list.Fault(f"{name}: " + "; ".join(canvas.faults()))
    return {f"{name}.svg": canvas.svg() for name, canvas in canvases.items()}


def stale():
    """Each picture that is missing, other than it would be made, or made by nothing."""
    made = pictures()
    there = {path.name: path.read_text() for path in FOLDER.glob("*.svg")}
    return sorted(name for name in made.keys() | there.keys() if made.get(name) != there.get(name))


def main():
    if sys.argv[1:] not in ([], ["--check"]):
        sys.exit("pictures: the only argument is --check")
    if sys.argv[1:]:
        sys.exit("\n".join(f"pictures: {name} is not as tools/pictures/make.py makes it"
                           for name in stale()) or 0)
    for name, text in pictures().items():
        (FOLDER / name).write_text(text)


if __name__ == "__main__":
    try:
        main()
    except move_list.Fault as fault:
        sys.exit(f"pictures: {fault}")
