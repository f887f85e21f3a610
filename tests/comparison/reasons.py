"""Whether the reasons that `why` prints agree with the answers: from the input and what `changes` prints, its reasons left out.

A refusal's number is named exactly where the line has it, a rule that discards exactly where the verdict
is D, nothing-to-do exactly where a frame is admitted and nothing is noticed, written or changed, and none
for all else. The value beside a reason is looked up in the input or in the table before the event.
"""

from tools import bench_input as bench

from . import turns

DISCARDS = ("no-class", "class-filter", "group-rule")
# Every word but refusal-1: the bench lends enough to every event.
WORDS = (*(f"refusal-{number}" for number in range(2, 10)), *DISCARDS, "nothing-to-do", "none")
GROUPED = (bench.ASSOCIATION_REQUEST, bench.ASSOCIATION_RESPONSE, bench.REASSOCIATION_REQUEST,
           bench.REASSOCIATION_RESPONSE, bench.AUTHENTICATION)


def words_allowed(turn):
    """The words that an answer leaves for its reason: one, or for a discard those of its octets."""
    answer = turn.answer
    if answer.refusal:
        return (f"refusal-{answer.refusal}",)
    if answer.verdict == "D":
        return discards_allowed(turn)
    still = not answer.notice and not answer.written and answer.table == turn.before
    return ("nothing-to-do",) if answer.verdict == "A" and still else ("none",)


def discards_allowed(turn):
    """The class filter alone replies; another version has no class; the group rule is of five kinds of
    management frames to a group address, and knows their sender."""
    octets = turn.event.body
    if turn.answer.written:
        return ("class-filter",)
    if octets[0] & 3:
        return ("no-class",)
    management, subtype = not octets[0] & 0x0c, octets[0] >> 4
    if management and subtype in GROUPED:
        return ("class-filter", "group-rule") if octets[4] & 1 else ("class-filter",)
    return ("no-class", "class-filter")


def peer_of(event):
    """The address that an event names: Address 2 of a frame, or the device of a primitive."""
    if event.kind == bench.FRAME:
        return event.body[10:16]
    return event.body[:6] if event.kind == bench.LINKS else event.body[1:7]


def value_of(word, turn):
    """What stands beside a word."""
    if word == "refusal-3":
        return len(turn.event.body) if turn.event.kind == bench.FRAME else 0
    row = turns.row_of(turn.before, peer_of(turn.event))
    if word in ("refusal-7", "class-filter"):
        return row.state if row else 1
    return row.hold if word == "refusal-8" else 0


def check(octets, said, printed):
    """The first event whose reason does not agree, as text, or None; `said` is what `why` printed of the
    octets, `printed` what `changes` did."""
    _, played = turns.read(octets, printed)
    lines = said.splitlines()
    stopped = ["stop"] if printed.endswith(turns.STOP) else []
    if lines[len(played):] != stopped:
        return f"{len(played)} events, {len(lines)} lines of reasons, that end in {lines[-1:]}"
    for number, (line, turn) in enumerate(zip(lines, played), 1):
        word = line.split(" ")[1]
        if word not in words_allowed(turn):
            return f"event {number} is '{line}', its answer {turn.answer}"
        wanted = f"{number} {word} {value_of(word, turn)}"
        if line != wanted:
            return f"event {number} is '{line}' instead of '{wanted}'"
    return None
