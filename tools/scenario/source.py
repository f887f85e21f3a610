"""The lines of a scenario's file, read some way ahead of what is told of them, and the faults in them."""

import collections
import io
import sys

from .read import FIRST, Reader
from .values import Fault

# So many lines are read before the first is played: a scenario up to there that has a fault is not played at all.
AHEAD = 4096
MOST_FAULTS = 20
LONGEST_LINE = 1 << 16


class UsageFault(Exception):
    """The command line or the file is not as it should be."""


class ScenarioFault(Exception):
    """Faults with their places, a line each: FILE:LINE: what is wrong and what would be right."""


def opened(file):
    """A file as text, and what faults call it; '-' is standard input."""
    if file != "-":
        try:
            return open(file, encoding="utf-8-sig", newline="\n"), file
        except OSError as fault:
            raise UsageFault(f"{file}: {fault.strerror}") from None
    if sys.stdin is None:
        raise UsageFault("standard input is closed")
    return io.TextIOWrapper(sys.stdin.buffer, encoding="utf-8-sig", newline="\n"), "standard input"


def _texts(source, name):
    """The lines of a text with their numbers; of one that is too long the first part alone."""
    at, whole = 0, True
    while True:
        try:
            text = source.readline(LONGEST_LINE)
        except UnicodeDecodeError:
            raise UsageFault(f"{name}: not a text in UTF-8, so no scenario") from None
        except OSError as fault:
            raise UsageFault(f"{name}: {fault.strerror}") from None
        if not text:
            return
        if whole:
            at += 1
            yield at, text
        whole = text.endswith("\n")


def lines(source, name):
    """The lines with their events. Where one is at fault no further line comes, and all faults are told at the end."""
    reader, waiting, faults, at, wrong = Reader(), collections.deque(), [], 1, False
    for at, text in _texts(source, name):
        try:
            if len(text) == LONGEST_LINE and text[-1] != "\n":
                raise Fault(f"a line of over {LONGEST_LINE} signs: a frame's octets need no more than 12,288")
            line = reader.line(text.rstrip("\r\n"), at)
        except Fault as fault:
            wrong = True
            faults += [f"{name}:{at}: {fault}"] if str(fault) else []
            if len(faults) > MOST_FAULTS:
                faults[-1] = f"{name}: more than {MOST_FAULTS} faults, these are the first"
                break
            continue
        if not wrong:
            waiting.append(line)
            if len(waiting) > AHEAD:
                yield waiting.popleft()
    if reader.settings is None and not wrong:
        faults.append(f"{name}:{at}: no settings: the first line is {FIRST}")
    if faults:
        raise ScenarioFault("\n".join(faults))
    yield from waiting
