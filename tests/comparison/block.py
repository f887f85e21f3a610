"""The numbers of a month, worked out in Python: counted from events, answers and tables, added without end, and
printed as `over` where they pass 64 bits.

Each number is read off the input and what `changes` prints alone: a hold that was set is the one that is
shown behind the event.
"""

import fractions

from tools import bench_input as bench

from . import turns
from .reasons import DISCARDS

MOST = 2 ** 64 - 1
OVER = "over"
# Each line's word and how many numbers it has; the mean comes last.
LINES = {"events": 1, "refusals": 9, "discards": 3, "joins": 1, "leaves": 1, "timeouts": 5, "holds": 1,
         "longest": 1, "total": 1}
REPORT = 8
CONFIRMED, DISASSOCIATED = (6, 8), 9


def empty():
    return {word: [0] * count for word, count in LINES.items()}


def hold_set(settings, turn):
    """The hold that a frame sets at a station: a rejected response, or a disassociation; else None."""
    answer = turn.answer
    rejected = answer.notice in CONFIRMED and answer.code
    if settings.role != bench.STATION or turn.event.kind != bench.FRAME:
        return None
    if not rejected and answer.notice != DISASSOCIATED:
        return None
    return answer.table[turn.event.body[10:16]].hold


def count(octets, printed):
    """The block of one input, by what `changes` printed of it."""
    block, holds = empty(), []
    settings, played = turns.read(octets, printed)
    for turn in played:
        answer = turn.answer
        block["events"][0] += 1
        if answer.refusal:
            block["refusals"][answer.refusal - 1] += 1
        if answer.verdict == "D":
            block["discards"][DISCARDS.index(answer.reason)] += 1
        block["joins"][0] += answer.ds == "J"
        block["leaves"][0] += answer.ds == "L"
        if turn.event.kind == bench.CLOCK:
            for at in range(1, answer.written, REPORT):
                block["timeouts"][answer.octets[at] - 1] += 1
        hold = hold_set(settings, turn)
        holds += [] if hold is None else [hold]
    block["holds"], block["longest"], block["total"] = [len(holds)], [max(holds, default=0)], [sum(holds)]
    return block


def joined(blocks):
    """All blocks together. A number is without end here; one that is `over` stays so."""
    whole = empty()
    for block in blocks:
        for word, numbers in block.items():
            for at, pair in enumerate(zip(whole[word], numbers)):
                one = max if word == "longest" else sum
                whole[word][at] = OVER if OVER in pair else one(pair)
    return whole


def shown(block):
    """The lines of a block."""
    over = {word: [OVER if number == OVER or number > MOST else number for number in numbers]
            for word, numbers in block.items()}
    (total,), (holds,) = over["total"], over["holds"]
    if OVER in (total, holds):
        mean = OVER
    else:
        part = fractions.Fraction(total, holds) if holds else fractions.Fraction(0)
        mean = f"{part.numerator}/{part.denominator}"
    lines = [" ".join([word, *map(str, numbers)]) for word, numbers in over.items()]
    return "".join(line + "\n" for line in lines) + f"mean {mean}\n"
