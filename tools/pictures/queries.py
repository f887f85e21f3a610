"""What becomes of an SA Query while its peer is in State 4, drawn from the list of moves."""

from .labels import Label, block, block_size
from .move_list import QUERIES, RSNA, RULES, Fault
from .svg import MUTED, PAPER

QUERY_HEIGHT = 238
NONE, SENT, DUE, TIMED_OUT = (QUERIES[name] for name in ("none", "sent", "due", "timed-out"))
# Each box's left edge; all stand in one row.
LEFTS = {NONE: 40, DUE: 402, SENT: 744, TIMED_OUT: 1062}
NAMES = {NONE: ("No query", "a request is denied"), DUE: ("Query runs", "its request is due"),
         SENT: ("Query runs", "its request is sent"), TIMED_OUT: ("Timed out", "the next request passes")}
FILLS = {NONE: PAPER, DUE: "#fff5c2", SENT: "#ddf0ff", TIMED_OUT: "#ffe3e0"}
WIDE, HIGH = 172, 54
# An arrow stands for the moves from any of some cases to one.
ARROWS = (((NONE,), DUE), ((DUE,), SENT), ((SENT,), DUE), ((DUE, SENT), NONE),
          ((DUE, SENT), TIMED_OUT), ((TIMED_OUT,), NONE))


def middle(case):
    return LEFTS[case] + WIDE / 2


def labels(froms, to, queries):
    """The causes of one arrow; a fault where two of its cases have other causes."""
    found = [[Label(query.by, query.cause) for query in queries
              if (query.before, query.after) == (case, to)] for case in froms]
    if not found[0] or any(sorted(other) != sorted(found[0]) for other in found):
        raise Fault(f"queries: no causes, or not the same ones, for the arrow to case {to}")
    return found[0]


def checked(queries):
    """The labels of every arrow. A move that no arrow shows is a fault, and so is one under other
    settings than the heading says."""
    shown = {(case, to) for froms, to in ARROWS for case in froms}
    for query in queries:
        if (query.before, query.after) not in shown:
            raise Fault(f"queries: no arrow goes from case {query.before} to {query.after}")
        if (query.rsna, query.rule) != (RSNA["any"], RULES["2p"]):
            raise Fault(f"queries: the heading does not hold of '{query.cause}'")
    return {(froms, to): labels(froms, to, queries) for froms, to in ARROWS}


def between(canvas, left, right, y, words, above):
    """A level arrow between two boxes, its labels in the middle above or below it."""
    start, end = (LEFTS[left] + WIDE, LEFTS[right]) if LEFTS[left] < LEFTS[right] \
        else (LEFTS[left], LEFTS[right] + WIDE)
    canvas.line([(start, y), (end, y)])
    wide, high = block_size(words)
    block(canvas, (start + end - wide) / 2, y - high - 3 if above else y + 3, words)


def round_about(canvas, froms, to, shift, y, edge):
    """A line out of the boxes at an edge, level at y, and into another box; the first box is the
    farthest. `shift` sets where it leaves and enters."""
    canvas.line([(middle(froms[0]) + shift, edge), (middle(froms[0]) + shift, y),
                 (middle(to) + shift, y), (middle(to) + shift, edge)])
    for case in froms[1:]:
        canvas.line([(middle(case) + shift, edge), (middle(case) + shift, y)], head=False)


def query_panel(canvas, top, queries):
    """The panel, its heading at `top`."""
    drawn = checked(queries)
    canvas.line([(24, top - 26), (canvas.width - 24, top - 26)], "#d8dee4", head=False, thin=True)
    canvas.text(34, top, "SA Query in State 4", 15, bold=True)
    canvas.text(216, top, "edition 2 with protected management frames; leaving State 4 ends it",
                fill=MUTED)
    y = top + 66
    for case, left in LEFTS.items():
        name, about = NAMES[case]
        canvas.rectangle(left, y, WIDE, HIGH, FILLS[case], "#8c959f", 8)
        canvas.text(left + WIDE / 2, y + 22, name, 13.5, "middle", True)
        canvas.text(left + WIDE / 2, y + 40, about, 11.5, "middle", fill=MUTED)
    between(canvas, NONE, DUE, y + 27, drawn[(NONE,), DUE], True)
    between(canvas, DUE, SENT, y + 18, drawn[(DUE,), SENT], True)
    between(canvas, SENT, DUE, y + 38, drawn[(SENT,), DUE], False)
    round_about(canvas, (DUE, SENT), TIMED_OUT, 0, y - 26, y)
    words = drawn[(DUE, SENT), TIMED_OUT]
    block(canvas, LEFTS[TIMED_OUT] - block_size(words)[0] - 20, y - 28 - block_size(words)[1], words)
    round_about(canvas, (SENT, DUE), NONE, 30, y + HIGH + 24, y + HIGH)
    words = drawn[(DUE, SENT), NONE]
    block(canvas, LEFTS[NONE] + WIDE + 10, y + HIGH + 22 - block_size(words)[1], words)
    round_about(canvas, (TIMED_OUT,), NONE, -30, y + HIGH + 72, y + HIGH)
    words = drawn[(TIMED_OUT,), NONE]
    block(canvas, LEFTS[TIMED_OUT] - block_size(words)[0] - 20, y + HIGH + 70 - block_size(words)[1], words)
