"""Plays the scenes of the message charts and checks the pictures.

python3 -m tests.pictures.check --bench CMD

Each step's line, the octets written and the peer's hold and query must be the scene's; where a scene
has two sides, the octets that one side hears are those that the other wrote, unless they are forged.
The pictures in docs/pictures must be what tools/pictures/make.py makes. The chart of each example is drawn too.
"""

import argparse
import io
import pathlib
import re
import shlex
import xml.dom.minidom

from tests import ending
from tools import bench_input
from tools.pictures import make, move_list, scenes
from tools.pictures import played as played_chart
from tools.scenario import source, stream

from . import situations

EXAMPLES = pathlib.Path(__file__).resolve().parents[2] / "examples"


def told(said, rows):
    """The octets written, in hexadecimal, of an event's lines, and the one record's hold and query after it."""
    octets = "".join(line.split()[1] for line in said if line.startswith("  octets "))
    return octets, [row.hold for row in rows.values()], [row[4:7] for row in rows.values()]


def played(name, scene, side, command):
    """The faults of one side of a scene."""
    mine = [step for step in scene.steps if step.side == side]
    said = situations.run(command, scenes.bench_input(scene, side))
    if len(said) != len(mine):
        return [f"{name}, {side}: {len(mine)} steps, {len(said)} lines"]
    faults = []
    for number, (step, lines, places) in enumerate(zip(mine, said, situations.tables(said)), 1):
        octets, holds, queries = told(lines, situations.rows(places))
        for what, wanted, got in (("line", f"{number} {step.answer}", lines[0]),
                                  ("octets", step.sent.hex(), octets),
                                  ("hold", [step.hold], holds), ("query", [step.query], queries)):
            if wanted != got:
                faults.append(f"{name}, {side}, step {number}: the chart has {what} {wanted}, "
                              f"the program {got}")
    return faults


def unsent(name, steps):
    """Frames of a scene with two sides that the other side's table did not write: only those
    that no table writes, ACK and data, and forged ones."""
    if len({step.side for step in steps}) < 2:
        return []
    written = {step.sent for step in steps}
    heard = [step.event[1] for step in steps if step.event[0] == "hear" and not step.forged]
    return [f"{name}: a frame is heard that nobody wrote: {octets.hex()}" for octets in heard
            if octets not in written and octets[0] >> 2 & 3 == bench_input.MANAGEMENT]


def charted(changes):
    """Charts of the examples, and of a scenario with long names and many peers: no words that overlap or leave
    the picture, and no hold at an access point."""
    texts = {file.name: file.read_text() for file in sorted(EXAMPLES.glob("*.scenario"))}
    long = "a-name-that-is-as-long-as-one-may-be-0-1"
    texts["long names"] = (f"# {'long ' * 90}\nap own=02:00:00:00:00:01\nname {long} = 02:00:00:00:00:0a\n"
                           f"frame auth-request from={long}\nframe assoc-request from={long}\nframe raw 00*12\nclock 100000\n"
                           "name p-1..40 = 02:00:00:00:01:01\nframe auth-request from=p-1..40\nclock 2s\n"
                           + "".join(f"frame data from=02:00:00:00:{n:02x}:77\n" for n in range(9)))
    found = []
    for name, text in texts.items():
        lines = stream.one_by_one(source.lines(io.StringIO(text), name), changes)
        canvas = played_chart.draw(played_chart.collected(lines), name)
        svg = canvas.svg()
        xml.dom.minidom.parseString(svg)
        found += [f"chart of {name}: {fault}" for fault in canvas.faults()]
        if "station own=" not in text and "hold" in svg.replace("hold on anybody", ""):
            found.append(f"chart of {name}: speaks of a hold where there is none")
        if not re.search(r">1(\.\.[0-9]+)?</text>", svg):
            found.append(f"chart of {name}: has no first event")
    return found, len(texts)


def main():
    parser = argparse.ArgumentParser(description=__doc__.splitlines()[0])
    parser.add_argument("--bench", required=True)
    given = parser.parse_args()
    command = shlex.split(given.bench) + ["changes"]
    faults, charts = [], 0
    try:
        for name, scene in scenes.SCENES.items():
            faults += unsent(name, scene.steps)
            for side in sorted({step.side for step in scene.steps}):
                faults += played(name, scene, side, command)
        faults += [f"{name} is not as tools/pictures/make.py makes it" for name in make.stale()]
        wrong, charts = charted(command)
        faults += wrong
    except (move_list.Fault, situations.Trouble) as fault:
        faults.append(str(fault))
    ending.tell(f"{len(scenes.SCENES)} scenes, charts of {charts} scenarios", faults)


if __name__ == "__main__":
    main()
