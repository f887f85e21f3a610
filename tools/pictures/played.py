"""The message chart of any scenario: who said what to whom, as the bench program answered it.

Peers are lines, frames arrows with their words; what changed of a record stands at the side, and a frame that was
not let in is crossed out.
"""

import collections
import copy
import pathlib
import re

from tools.scenario import codes
from tools.scenario.answers import read
from tools.scenario.names import Names
from tools.scenario.source import UsageFault
from tools.scenario.values import visible

from .charts import shortened, titled
from .lifelines import Lifelines
from .rows import LEFT, SIDE_WIDE, Drawn
from .svg import width_of

MOST_ROWS = 400
TITLE = 20
# One line to draw: the scenario's text, its events with their answers, its settings, and the names that hold there.
Row = collections.namedtuple("Row", "text played settings names")


def collected(played):
    """All lines that a chart shows; a fault where they are too many for a picture."""
    rows, names, drawn = [], Names(), 0
    for line, turns in played:
        if line.named:
            names = copy.deepcopy(names)
            names.define(*line.named)
        if line.settings:
            names = copy.deepcopy(names)
            names.set_own(line.settings.own)
        events = [read(turn) for turn in turns]
        drawn += bool(events)
        if drawn > MOST_ROWS:
            raise UsageFault(f"a chart of over {MOST_ROWS} lines with events can't be read: cut the scenario into parts")
        if events or line.settings or line.text.startswith("#") or not line.text:
            rows.append(Row(line.text, events, line.settings, names))
    return rows


def remark_of(text):
    return visible(text.lstrip("# ").strip())


def sentences(text, room):
    """As many sentences as there is room for; of the first one as much."""
    found = ""
    for sentence in re.split(r"(?<=[.!?:]) ", text):
        longer = f"{found} {sentence}".strip()
        if found and width_of(longer) > room:
            break
        found = longer
    return shortened(found.rstrip(":"), room)


def settings_words(settings):
    """The settings in few words, for a heading."""
    role = codes.ROLES.get(settings.role, f"role {settings.role}")
    edition, protection = settings.rule[:2]
    parts = [role, "RSNA required" if settings.rsna == 1 else "", f"edition {edition}" if edition else "",
             "management frames protected" if protection == 1 else ""]
    return "With an empty table: " + ", ".join(filter(None, parts))


def headings(rows):
    """Each row with events or settings, and the remark above it: its lines put together, '' where there is none."""
    remark, open_ = "", False
    for row in rows:
        if row.text.startswith("#"):
            remark = f"{remark} {remark_of(row.text)}".strip() if open_ else remark_of(row.text)
            open_ = True
            continue
        open_ = False
        if row.played or row.settings:
            yield row, remark
            remark = ""


def draw(rows, name):
    """The picture of some lines."""
    lifelines = Lifelines(rows)
    width = max(lifelines.names.values(), default=LEFT) + SIDE_WIDE
    first = re.split(r"(?<=[a-z)])[.:]( |$)", remark_of(rows[0].text))[0] if rows and rows[0].text.startswith("#") else ""
    title = shortened(first or visible(pathlib.Path(name).stem), (width - 80) * 12.5 / TITLE / 1.14)
    about = f"{visible(pathlib.Path(name).name)}: events by number, and at the side what became of a record."
    canvas = titled(width, title, shortened(about, width - 80))
    drawn = Drawn(canvas, lifelines)
    several = sum(row.settings is not None for row in rows) > 1
    for row, remark in headings(rows):
        if row.settings:
            drawn.settings = row.settings
            if several:
                drawn.heading(settings_words(row.settings), True)
        if remark and (row.played or several) and remark_of(rows[0].text) not in remark:
            drawn.heading(sentences(remark, width - 60))
        drawn.line(row)
    drawn.chart.names(drawn.chart.y + 24)
    canvas.height = drawn.chart.y + 48
    return canvas


def write(played, name, out):
    """Draws a scenario into a file."""
    rows = collected(played)
    if not any(row.played for row in rows):
        raise UsageFault(f"{name}: no event, so there is nothing to draw")
    canvas = draw(rows, name)
    try:
        pathlib.Path(out).write_text(canvas.svg(), encoding="utf-8")
    except OSError as fault:
        raise UsageFault(f"{out}: {fault.strerror}") from None
    return 0
