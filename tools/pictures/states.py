"""The picture of a peer's states in each role, drawn from the list of moves."""

import collections

from .conditions import TAGS, condition
from .labels import TEXT_AT, Label, block, block_size, mark
from .move_list import ROLES, Fault
from .notes import NOTES, belied
from .queries import QUERY_HEIGHT, query_panel
from .svg import AMBER, MUTED, PAPER, Canvas, width_of

WIDTH, HEIGHT, AD_HOC_HEIGHT = 1330, 954, 512
ACCESS_POINT, STATION, AD_HOC = ROLES.values()
BOX_X, BOX_WIDTH, BOX_HEIGHT = 264, 398, 68
BOX_END = BOX_X + BOX_WIDTH
TOPS = {0: 90, 1: 218, 2: 340, 3: 528, 4: 756}
DOWN, UP = BOX_X + 12, BOX_END - 10
LEFT_BUS, RIGHT_BUS = BOX_X - 26, BOX_END + 24
NAMES = {0: ("No record", "counts as State 1"), 1: ("State 1", "not authenticated"),
         2: ("State 2", "authenticated, not associated"),
         3: ("State 3", "associated, the RSNA not yet set up"), 4: ("State 4", "associated")}
FILLS = {0: PAPER, 1: "#eff2f5", 2: "#ddf0ff", 3: "#fff5c2", 4: "#d8f5df"}
AD_HOC_NAMES = {**NAMES, 2: ("State 2", "authenticated")}
TITLES = {ACCESS_POINT: "A peer's state at an access point",
          STATION: "An access point's state at a station",
          AD_HOC: "A peer's state in an ad hoc network"}
NOTES_X, NOTES_Y = 968, 96
# Between two marks of the legend.
APART = 26

# An arrow stands for the moves from any of some states to one; they must have the same causes.
SHARED = (((0,), 1), ((1,), 2), ((1,), 0))
ARROWS = SHARED + (((2,), 3), ((3,), 4), ((4,), 3), ((2,), 4), ((3, 4), 2), ((2, 3, 4), 1))
AD_HOC_ARROWS = SHARED + (((2,), 1),)
Arrow = collections.namedtuple("Arrow", "froms to labels")


def middle(state):
    return TOPS[state] + BOX_HEIGHT / 2


def states_words(states):
    return "State " + " and ".join(str(state) for state in states)


def headings(froms, to, moves, under):
    """Under which settings the moves are made, where that is said of all at once, and what they tell
    the DS; of a move back whose labels stand between two arrows, where it goes."""
    back = "back to State 3" if (froms, to) == ((4,), 3) else None
    lines = [", ".join(filter(None, (back, under)))] if back or under else []
    for letter, word in (("J", "joined"), ("L", "left")):
        told = [state for state in froms if {m.ds for m in moves if m.before == state} == {letter}]
        if told:
            lines.append(f"DS told: {word}" + ("" if len(told) == len(froms) else ","))
            lines += [] if len(told) == len(froms) else [f"from {states_words(told)}"]
    return [Label("heading", line) for line in lines]


def causes(state, to, moves):
    """Each cause of a move from a state to one, once: its mark, its words, whether it sets the hold,
    and under which settings it moves."""
    leaving = [m for m in moves if m.before == state]
    found = {}
    for move in leaving:
        if move.after == to:
            found.setdefault((move.by, move.cause), []).append(move)
    return [(by, cause, None if same[0].hold == ("kept",) else "hold", condition(same, leaving))
            for (by, cause), same in found.items()]


def arrow(froms, to, moves):
    """The moves of one arrow as labels; a fault where two of its states have other causes."""
    found = {state: causes(state, to, moves) for state in froms}
    first = found[froms[0]]
    for state, rows in found.items():
        if not rows or sorted(map(str, rows)) != sorted(map(str, first)):
            raise Fault(f"states: {states_words((froms[0],))} and {states_words((state,))} go to "
                        f"{to} by other causes, so one arrow can't show both")
    under = {row[3] for row in first}
    alike = under.pop() if len(under) == 1 else None
    labels = [Label(by, cause, ", ".join(filter(None, (hold, not alike and TAGS.get(when, when)))) or None)
              for by, cause, hold, when in first]
    drawn = [m for m in moves if m.before in froms and m.after == to]
    return Arrow(froms, to, headings(froms, to, drawn, alike) + labels)


def arrows(role, moves):
    """Every arrow of a role. A move that no arrow shows is a fault."""
    mine = [move for move in moves if move.role == role]
    all_ = AD_HOC_ARROWS if role == AD_HOC else ARROWS
    shown = {(state, to) for froms, to in all_ for state in froms}
    for move in mine:
        if (move.before, move.after) not in shown:
            raise Fault(f"states: no arrow goes from {move.before} to {move.after}")
    return {(froms, to): arrow(froms, to, mine) for froms, to in all_}


def boxes(canvas, passes, names):
    """A box for each state of the role, with the classes that pass there."""
    for state in passes:
        top, (name, about) = TOPS[state], names[state]
        canvas.rectangle(BOX_X, top, BOX_WIDTH, BOX_HEIGHT, FILLS[state], "#8c959f", 8, state == 0)
        x = BOX_X + BOX_WIDTH / 2
        classes = ", ".join(str(klass) for klass in passes[state])
        canvas.text(x, top + 23, name, 15, "middle", True)
        canvas.text(x, top + 41, about, anchor="middle")
        canvas.text(x, top + 58, f"frames of class {classes} pass", 11.5, "middle", fill=MUTED)


def straight(canvas, arrow_, x, side, at=0.5):
    """Between two neighbouring boxes; its labels on one side, at a part of the room above."""
    upper = min(arrow_.froms[0], arrow_.to)
    gap = (TOPS[upper] + BOX_HEIGHT, TOPS[upper + 1])
    ends = gap if arrow_.to > upper else gap[::-1]
    canvas.line([(x, ends[0]), (x, ends[1])])
    wide, high = block_size(arrow_.labels)
    block(canvas, x + 12 if side == "right" else x - 12 - wide,
          gap[0] + (gap[1] - gap[0] - high) * at, arrow_.labels)


def to_state_1(canvas, arrow_):
    """On the left: one line from each state, up to State 1."""
    chain = (1,) + arrow_.froms
    lowest, half = chain[-1], len(chain) // 2
    canvas.line([(BOX_X, middle(lowest)), (LEFT_BUS, middle(lowest)), (LEFT_BUS, middle(1)),
                 (BOX_X, middle(1))])
    for state in arrow_.froms[:-1]:
        canvas.line([(BOX_X, middle(state)), (LEFT_BUS, middle(state))], head=False)
    wide, high = block_size(arrow_.labels)
    block(canvas, LEFT_BUS - 12 - wide, (middle(chain[half - 1]) + middle(chain[half])) / 2 - high / 2,
          arrow_.labels)


def to_state_2(canvas, arrow_):
    """On the right: one line from State 3 and 4, up to State 2. The right edge of its labels."""
    canvas.line([(BOX_END, middle(4) - 14), (RIGHT_BUS, middle(4) - 14),
                 (RIGHT_BUS, middle(2) + 14), (BOX_END, middle(2) + 14)])
    canvas.line([(BOX_END, middle(3)), (RIGHT_BUS, middle(3))], head=False)
    wide, high = block_size(arrow_.labels)
    block(canvas, RIGHT_BUS + 12, (middle(2) + middle(4)) / 2 - high / 2, arrow_.labels)
    return RIGHT_BUS + 12 + wide


def past_state_3(canvas, arrow_, edge):
    """On the far right: from State 2 down to State 4."""
    bus = edge + 10
    canvas.line([(BOX_END, middle(2) - 14), (bus, middle(2) - 14), (bus, middle(4) + 14),
                 (BOX_END, middle(4) + 14)])
    high = block_size(arrow_.labels)[1]
    block(canvas, bus + 10, (middle(2) + middle(4)) / 2 - high / 2, arrow_.labels)


def notes(canvas, role, listed):
    """The sentences of a role, each held against the list first."""
    if belied(role, listed):
        raise Fault(f"states: the list of moves belies the note '{belied(role, listed)}'")
    y = NOTES_Y
    for lines, _ in NOTES[role]:
        canvas.put("circle", cx=float(NOTES_X - 12), cy=float(y - 4), r=2.5, fill=MUTED)
        for words in lines:
            canvas.text(NOTES_X, y, words, fill=MUTED)
            y += 18
        y += 8


def legend(canvas, role):
    """What the marks mean, one behind the other with room between them."""
    y = canvas.height - 44
    canvas.line([(24, y - 32), (WIDTH - 24, y - 32)], "#d8dee4", head=False, thin=True)
    x = 34
    for kind, words in (("frame", "a frame heard from the peer"), ("clock", "a clock step"),
                        ("primitive-7", "a primitive of our own side, with its number")):
        mark(canvas, kind, x + 9, y - 4)
        canvas.text(x + TEXT_AT, y, words)
        x += TEXT_AT + width_of(words) + APART
    tags = {STATION: (("hold", "sets the hold: the comeback given, else 1,954 TU"),),
            ACCESS_POINT: (("DS", "the distribution system"), ("edition 2", "without protection, by the settings"))}
    for word, words in tags.get(role, ()):
        canvas.text(x, y, word, bold=word != "DS", fill=MUTED if word == "DS" else AMBER)
        x += width_of(word, bold=True) + 8
        canvas.text(x, y, words)
        x += width_of(words) + APART
    canvas.text(34, y + 26, "Every move there is: docs/pictures/moves.txt, held against the "
                "program by tests/pictures/moves.py. What is not shown moves no state.", 11.5, fill=MUTED)


def associated(canvas, drawn):
    """The arrows to and from State 3 and 4, and those back to State 1."""
    straight(canvas, drawn[(2,), 3], DOWN, "right")
    straight(canvas, drawn[(3,), 4], DOWN, "right", 0.15)
    straight(canvas, drawn[(4,), 3], UP, "left", 0.8)
    to_state_1(canvas, drawn[(2, 3, 4), 1])
    past_state_3(canvas, drawn[(2,), 4], to_state_2(canvas, drawn[(3, 4), 2]))


def picture(role, listed):
    """At an access point with what becomes of a query below; in an ad hoc network without State 3 and 4."""
    with_query, short = role == ACCESS_POINT, role == AD_HOC
    canvas = Canvas(WIDTH, AD_HOC_HEIGHT if short else HEIGHT + with_query * QUERY_HEIGHT, TITLES[role],
                    "States, and every cause of a move between them.")
    canvas.text(34, 42, TITLES[role], 20, bold=True)
    canvas.text(34, 65, "Each arrow is a move of the state in the peer's record, and beside it "
                "stands what causes it.", fill=MUTED)
    notes(canvas, role, listed)
    drawn = arrows(role, listed.moves)
    boxes(canvas, listed.passes[role], AD_HOC_NAMES if short else NAMES)
    straight(canvas, drawn[(0,), 1], DOWN, "right")
    straight(canvas, drawn[(1,), 0], UP, "right")
    straight(canvas, drawn[(1,), 2], DOWN, "right")
    if short:
        to_state_1(canvas, drawn[(2,), 1])
    else:
        associated(canvas, drawn)
    if with_query:
        query_panel(canvas, HEIGHT - 88, listed.queries)
    legend(canvas, role)
    return canvas
