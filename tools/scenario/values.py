"""What stands behind the words of a scenario: numbers, octets, amounts of time, and what is shown of a text."""

import fractions
import re

from tools import bench_input as bench

NUMBER = re.compile(r"[0-9]+|0x[0-9a-f]+", re.IGNORECASE)
# Octets with nothing, ':', '-' or ',' between them, 0x before them or not; *9 repeats them.
OCTETS = re.compile(r"(?:0x)?((?:[0-9a-f]{2})(?:[:,-]?(?:0x)?[0-9a-f]{2})*)(?:\*([0-9]+))?", re.IGNORECASE)
BETWEEN = re.compile(r"[:,-]|0x", re.IGNORECASE)
TIME = re.compile(r"([0-9]+(?:\.[0-9]+)?)(us|ms|s|min|h|tu)?", re.IGNORECASE)
# Microseconds of each unit; a TU is the one meant where none is given.
UNITS = {"us": 1, "ms": 1000, "s": 10**6, "min": 60 * 10**6, "h": 3600 * 10**6, "tu": 1024}
TU = UNITS["tu"]
# A clock step has 16 bits; the longest time is that of a hold, 32 bits of TU.
LONGEST_STEP, LONGEST_TIME = 0xFFFF, 0xFFFFFFFF
MOST_DIGITS = 20
MOST_SIGNS, SIGNS_SHOWN = 48, 32


class Fault(Exception):
    """What is wrong with a line of a scenario, and what would be right."""


def visible(text):
    """A text with each sign that a terminal would act on written out, as \\x1b; a tab stays."""
    if text.isprintable():
        return text
    return "".join(sign if sign.isprintable() or sign == "\t"
                   else sign.encode("unicode_escape", "surrogatepass").decode() for sign in text)


def cut(text):
    """A word as a fault shows it: in quotes, the first signs of a long one, none that a terminal acts on."""
    if len(text) > MOST_SIGNS:
        return f"'{visible(text[:SIGNS_SHOWN])}..' ({len(text)} signs)"
    return f"'{visible(text)}'"


def number(text, what, highest):
    """A number that its field can hold, decimal or hexadecimal."""
    if not NUMBER.fullmatch(text):
        raise Fault(f"{what}: {cut(text)} is no number: decimal as 17, or hexadecimal as 0x11")
    if len(text) > MOST_DIGITS:
        raise Fault(f"{what}: a number of {len(text)} digits does not fit: 0 to {highest}")
    value = int(text, 16 if text[:2] in ("0x", "0X") else 10)
    if value > highest:
        raise Fault(f"{what}: {text} does not fit: 0 to {highest}")
    return value


def octets(text, what):
    """Octets from hexadecimal digits: b0003a, b0 00 3a, b0:00:3a, b0-00-3a or 0xb0; 00*9 is nine times 00."""
    laid = b""
    for word in text.split():
        found = OCTETS.fullmatch(word)
        if not found:
            raise Fault(f"{what}: {cut(word)} is not octets: two hexadecimal digits each, as 38 05, "
                        "38:05, 0x38 or 3805, or 00*9 for nine of them")
        times = number(found[2] or "1", f"{what}, times", bench.LONGEST_FRAME)
        laid += bytes.fromhex(BETWEEN.sub("", found[1])) * times
        if len(laid) > bench.LONGEST_FRAME:
            raise Fault(f"{what}: more than the {bench.LONGEST_FRAME} octets that a frame can have")
    return laid


def duration(text):
    """An amount of time as whole TU, and what is left over in microseconds, itself not always whole."""
    if text[:2].lower() == "0x":
        return number(text, "clock", LONGEST_TIME), fractions.Fraction(0)
    found = TIME.fullmatch(text)
    if not found or (found[2] is None and "." in found[1]):
        raise Fault(f"clock: {cut(text)} is no time: whole TU as 100, or with a unit as 2s, 500ms, 1.5min, 1h")
    if len(text) > MOST_DIGITS + 3:
        raise Fault(f"clock: a time of {len(text)} signs does not fit: at most {LONGEST_TIME} TU")
    passed = fractions.Fraction(found[1]) * UNITS[(found[2] or "tu").lower()]
    whole, over = divmod(passed, TU)
    if whole > LONGEST_TIME:
        raise Fault(f"clock: {text} does not fit: at most {LONGEST_TIME} TU, some 50 days")
    if whole == 0 and over:
        raise Fault(f"clock: {text} is less than one TU, which is 1,024 us")
    return int(whole), over


def steps(whole):
    """Clock steps that are so many TU together: the longest ones first, the rest last."""
    many, rest = divmod(whole, LONGEST_STEP)
    return [LONGEST_STEP] * many + ([rest] if rest or not many else [])


def microseconds(over):
    """An amount of microseconds for a reader: whole, or with its decimals."""
    return f"{int(over)} us" if over.denominator == 1 else f"{float(over):.3f} us"
