"""The message chart of two scanners without an access point that ask each other at once."""

from .charts import Chart, Lines, ended, play, titled
from .scenes import BOTH_ASK, BOTH_ASK_PARTS

WIDTH = 1100
OWN_1, TABLE_1, TABLE_2, OWN_2 = 176, 428, 730, 1006

# What a scanner that asks alone hears, by the scene that is played for it.
REMARK = (
    "The request that is heard takes the place of a scanner's own, so the answer to its own "
    "finds nothing to end.",
    "A scanner that asks alone is told of the answer, AUTHENTICATE.confirm, status 0, and is in "
    "State 2 as well.",
)


def crossing():
    canvas = titled(WIDTH, "Two scanners ask at once", "An ad hoc network: no access point, each scanner has "
                    "its own table. Every frame has the network's address as Address 3.")
    chart = Chart(canvas, {OWN_1: "Scanner 1's own side", TABLE_1: "Scanner 1's table",
                           TABLE_2: "Scanner 2's table", OWN_2: "Scanner 2's own side"})
    sides = {"one": Lines(OWN_1, TABLE_1, TABLE_2), "two": Lines(OWN_2, TABLE_2, TABLE_1)}
    play(chart, sides, BOTH_ASK, {"one": (0, 0, 0), "two": (0, 0, 0)}, BOTH_ASK_PARTS)
    return ended(canvas, chart, WIDTH, REMARK)
