"""The message chart of a forged request to rejoin: without protection, and with it."""

from .charts import Chart, Lines, play, titled
from .scenes import ASKED_FIRST, MAXIMUM, RETRY, THROWN_OUT

WIDTH, HALF = 1340, 670
OWN, TABLE, SCANNER, ATTACKER = 74, 280, 464, 610


def remark(canvas, x, y):
    """What becomes of a query that nobody answers, by the scene that is played for it."""
    canvas.rectangle(x, y, 590, 92, "#f6f8fa", "#d8dee4", 8)
    lines = (f"Where nobody answers, the query's request is sent again each {RETRY} TU. After {MAXIMUM:,} TU",
             "the query has timed out and the next request passes: a scanner that was restarted",
             "comes back, and the comeback told with status 30 is how long it has to wait.")
    for at, words in enumerate(lines):
        canvas.text(x + 18, y + 27 + 22 * at, words)


def forged_rejoin():
    canvas = titled(WIDTH, "A forged request to rejoin", "A scanner has joined and is in State 4. "
                    "An attacker sends a request to associate in its address.")
    for left, title, steps in ((0, "Edition 1: the scanner is thrown out", THROWN_OUT),
                               (HALF, "Edition 2 with protection: the scanner is asked first", ASKED_FIRST)):
        canvas.text(left + 34, 104, title, 14.5, bold=True)
        own, table, scanner, attacker = (left + x for x in (OWN, TABLE, SCANNER, ATTACKER))
        chart = Chart(canvas, {own: "Own side", table: "AP's table", scanner: "Scanner",
                               attacker: "Attacker"}, False, 124)
        sides = {"ap": Lines(own, table, scanner, attacker), "station": Lines(None, scanner, table)}
        play(chart, sides, steps, {"ap": (4, 0, 0), "station": (4, 0, 0)})
        chart.names(chart.y + 24)
        canvas.height = max(canvas.height, chart.y + 48)
        if left == 0:
            bottom = chart.y + 24
    remark(canvas, 34, bottom + 30)
    canvas.height = max(canvas.height, bottom + 30 + 92 + 24)
    canvas.line([(HALF, 92), (HALF, canvas.height - 24)], "#d8dee4", head=False, thin=True)
    return canvas
