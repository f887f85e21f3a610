"""The message chart of a tablet with three radios that joins once."""

from .charts import Chart, Lines, ended, play, titled
from .scenes import RADIOS, TABLET_JOINS, TABLET_PARTS

WIDTH = 1200
OWN, TABLE, FIRST, APART = 204, 462, 692, 210

# What a farewell does, by the scene that is played for it.
REMARK = (
    "The tablet has one record, one state and one AID. What it is asked or told goes to its first radio; "
    "a reply goes to the radio that it answers.",
    "A farewell by one radio is the whole tablet's. Its place is kept until its links are taken away.",
)


def tablet():
    canvas = titled(WIDTH, "A tablet with three radios joins once", "An access point that does not require RSNA. "
                    "The tablet's radios are named beforehand; each has an address of its own.")
    radios = {address: FIRST + APART * at for at, address in enumerate(RADIOS)}
    names = {x: f"Tablet, radio {at}" for at, x in enumerate(radios.values(), 1)}
    chart = Chart(canvas, {OWN: "AP's own side", TABLE: "Access point's table", **names})
    play(chart, {"site": Lines(OWN, TABLE, FIRST, None, radios)}, TABLET_JOINS, {"site": (0, 0, 0)}, TABLET_PARTS)
    return ended(canvas, chart, WIDTH, REMARK)
