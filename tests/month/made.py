"""Months drawn by chance, as the bench program prints them: small numbers, high ones, and `over` in some places."""

import fractions

from tests.comparison.walk import Dice
from tools.month.blocks import LINES, MOST

HIGH = (MOST, MOST - 1, 1 << 63, 1 << 40, 4294967295)


def _number(dice, seed):
    """Mostly small; in some months high, in some none."""
    kind = dice.below(12)
    if seed % 4 == 1 and kind == 0:
        return "over"
    if seed % 2 == 1 and kind < 3:
        return str(dice.of(HIGH))
    return str(dice.below(5000)) if seed % 4 != 2 else "0"


def _block(dice, seed):
    lines = {word: [_number(dice, seed) for _ in range(many)] for word, many in LINES.items()}
    total, holds = lines["total"][0], lines["holds"][0]
    mean = "over" if "over" in (total, holds) else fractions.Fraction(int(total), int(holds)) if int(holds) else "0/1"
    shown = mean if isinstance(mean, str) else f"{mean.numerator}/{mean.denominator}"
    return [" ".join([word, *numbers]) for word, numbers in lines.items()] + [f"mean {shown}"]


def month(seed, many):
    """Names, and what is printed of them; the block of all is one of its own, as a picture adds nothing up but the rest."""
    dice = Dice(seed)
    names = [f"yard/{'long-' * (at % 9)}{at:03}.bench" for at in range(many)]
    lines = [line for name in names for line in (f"file {name}", *_block(dice, seed))]
    return names, "\n".join([*lines, "all", *_block(dice, seed), ""]).encode()


def numbers(printed):
    """Each block's numbers in a row, and its mean."""
    rows = []
    for line in printed.decode().splitlines():
        word, *values = line.split(" ")
        if word in ("file", "all"):
            rows.append([])
        else:
            rows[-1] += values
    return rows
