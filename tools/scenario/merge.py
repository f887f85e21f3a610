"""Puts texts in a row together that differ only in numbers which all rise by one from text to text."""

import functools
import re

MOST_KEPT = 256
# A number, and octets in a row as addresses have them: of these nothing is counted.
PART = re.compile(r"([0-9a-f]{2}(?::[0-9a-f]{2})+|[0-9]+)")


def _next(one, other):
    """Whether a number is the one behind another, with as many noughts before it."""
    if not (one.isdigit() and other.isdigit()) or int(other) != int(one) + 1:
        return False
    return one == str(int(one)) if len(one) != len(other) else True


def _steps(ones, others):
    """0 or 1 for each number of two texts, given in parts; None where they differ in anything else."""
    if len(ones) != len(others):
        return None
    steps = []
    for at, (one, other) in enumerate(zip(ones, others)):
        if one != other and not (at % 2 and _next(one, other)):
            return None
        if at % 2:
            steps.append(int(one != other))
    return steps


@functools.lru_cache(MOST_KEPT)
def runs(texts):
    """The runs from first to last, each as its first text's place and how many there are."""
    found, parts = [], [PART.split(text) for text in texts]
    steps = None
    for at, own in enumerate(parts):
        now = _steps(parts[at - 1], own) if at else None
        count = found[-1][1] if found else 0
        if now is not None and (count == 1 or now == steps):
            found[-1] = (found[-1][0], count + 1)
            steps = now
        else:
            found.append((at, 1))
    return found


@functools.lru_cache(MOST_KEPT)
def joined(first, last):
    """One text for a run: 'place 0' to 'place 29' is 'place 0..29'."""
    return "".join(one if one == other else f"{one}..{other}"
                   for one, other in zip(PART.split(first), PART.split(last)))


def lines(texts):
    """The texts with each run made one; two in a row stay two."""
    merged = []
    for at, count in runs(tuple(texts)):
        if count > 2:
            merged.append(joined(texts[at], texts[at + count - 1]))
        else:
            merged += texts[at:at + count]
    return merged
