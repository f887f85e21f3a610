"""Reads what `bench month` prints, a block of numbers for each file and one for all together."""

import collections
import fractions
import math
import os
import re

from tools.scenario import codes
from tools.scenario.answers import BenchFault

# The lines of a block and how many numbers each has; the mean comes last.
LINES = {"events": 1, "refusals": 9, "discards": 3, "joins": 1, "leaves": 1, "timeouts": 5, "holds": 1, "longest": 1, "total": 1}
Block = collections.namedtuple("Block", [*LINES, "mean"])
# A number that the program could not count in 64 bits: more than any that it could.
OVER, MOST = math.inf, (1 << 64) - 1
NUMBER = r"(?:over|0|[1-9][0-9]{0,19})"
MEAN = re.compile(r"mean (?:(over)|([0-9]{1,20})/([1-9][0-9]{0,19}))")
FORMS = {word: re.compile(word + f"(?: {NUMBER})" * 1 if many == 1 else word + f"(?: {NUMBER})" + "{" + str(many) + "}")
         for word, many in LINES.items()}
# What the numbers of a line with several are about.
REFUSALS = tuple(f"refusal {number}: {about}" for number, about in codes.ALL_REFUSALS.items())
DISCARDS = ("no class: another version, or a type and subtype that no class has",
            "class filter: a frame of this class does not pass in the state of its peer",
            "group rule: to a group address, and such a frame is for one receiver alone")
TIMEOUTS = tuple(codes.REPORTS.values())


def _odd(line):
    return BenchFault(f"the bench program printed '{line}', which is no line of a month")


def _number(text):
    return OVER if text == "over" else int(text)


def block(lines):
    """A block of its lines."""
    values = []
    for line, (word, many) in zip(lines, LINES.items()):
        if not FORMS[word].fullmatch(line):
            raise _odd(line)
        numbers = tuple(map(_number, line.split(" ")[1:]))
        values.append(numbers if many > 1 else numbers[0])
    found = MEAN.fullmatch(lines[-1])
    if not found:
        raise _odd(lines[-1])
    return Block(*values, OVER if found[1] else fractions.Fraction(int(found[2]), int(found[3])))


def read(printed, names):
    """The blocks of the files, in their order, and that of all together. A name may have any octets, line ends too."""
    at, found = 0, []
    for head in [b"file " + os.fsencode(name) + b"\n" for name in names] + [b"all\n"]:
        if not printed.startswith(head, at):
            raise _odd(printed[at:at + 60].decode("ascii", "replace").partition("\n")[0])
        lines = printed[at + len(head):].split(b"\n", len(Block._fields))
        if len(lines) <= len(Block._fields):
            raise BenchFault(f"the bench program counted {len(found)} of {len(names)} files")
        found.append(block([line.decode("ascii", "replace") for line in lines[:-1]]))
        at = len(printed) - len(lines[-1])
    if at < len(printed):
        raise _odd(printed[at:at + 60].decode("ascii", "replace").partition("\n")[0])
    return found[:-1], found[-1]


def sum_of(numbers):
    """A sum as the program has it: over where it would pass 64 bits."""
    total = sum(numbers)
    return total if total <= MOST else OVER


def together(some):
    """Several blocks as one, for a column of a picture."""
    parts = {}
    for word, many in LINES.items():
        if many > 1:
            parts[word] = tuple(map(sum_of, zip(*(getattr(one, word) for one in some))))
        else:
            join = max if word == "longest" else sum_of
            parts[word] = join([getattr(one, word) for one in some])
    mean = OVER if OVER in (parts["total"], parts["holds"]) else fractions.Fraction(parts["total"], parts["holds"] or 1)
    return Block(**parts, mean=mean)


def shown(value):
    """A number for a reader; a mean with one decimal."""
    if value == OVER:
        return "over"
    return f"{value:,}" if isinstance(value, int) else f"{value.numerator * 10 // value.denominator / 10:,.1f}"
