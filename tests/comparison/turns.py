"""A bench input beside what a program printed of it: each event with its answer and the table before it.

Nothing here knows a rule: the events are the input's records, and the answers and tables are those of
the program's own lines and of the changes behind them.
"""

import collections
import subprocess

from tools import bench_input as bench
from tools.scenario import answers, blocks

Event = collections.namedtuple("Event", "kind body")
# The table before and after is by address; its rows are those that the program showed last.
Turn = collections.namedtuple("Turn", "event answer before")
Settings = collections.namedtuple("Settings", "role own rsna authentication_timeout association_timeout "
                                  "edition protection query_retry query_maximum network")
STOP = "stop\n"
SECONDS = 120


def records(octets):
    """The records of an input, one after the other, up to one that is cut."""
    at = 0
    while at + bench.HEAD <= len(octets):
        end = at + bench.HEAD + int.from_bytes(octets[at + 3:at + bench.HEAD], "little")
        if end > len(octets):
            return
        yield Event(octets[at + 2], octets[at + bench.HEAD:end])
        at = end


def settings_of(body):
    """The fields of a settings record; those that it does not have mean what the shorter one means."""
    def at(start, end):
        return int.from_bytes(body[start:end], "little")
    given = (at(12, 13), at(13, 14), at(14, 16), at(16, 18), body[18:24])
    there = sum(len(body) >= length for length in (14, 14, 18, 18, 24))
    return Settings(body[0], body[1:7], body[7], at(8, 10), at(10, 12), *given[:there],
                    *bench.USUAL_RULE[there:])


def read(octets, printed):
    """The settings and the turns, as many as there are answers; an input without a whole settings record
    has neither."""
    if printed.endswith(STOP):
        printed = printed[:-len(STOP)]
    every = list(records(octets))
    count = sum(not line.startswith(" ") for line in printed.splitlines())
    if not every or not count:
        return None, []
    found = blocks.answers(printed)
    if len(found) != count:
        raise answers.BenchFault(f"{len(found)} answers are read from {count} lines")
    tables = [{}] + [answer.table for answer in found]
    turns = [Turn(*one) for one in zip(every[1:], found, tables)]
    return settings_of(every[0].body), turns


def printed_by(command, octets):
    """What a program prints on these octets."""
    try:
        done = subprocess.run(command, input=octets, capture_output=True, timeout=SECONDS)
    except OSError as fault:
        raise answers.BenchFault(f"{command[0]} can't be run: {fault.strerror}") from None
    except subprocess.TimeoutExpired:
        raise answers.BenchFault(f"{command[0]} had not ended after {SECONDS} s") from None
    if done.returncode:
        raise answers.BenchFault(f"{command[0]} ended with status {done.returncode}")
    return done.stdout.decode("ascii", "replace")


def play(command, octets):
    """The same of what a command, with its word for changes, prints of the octets."""
    return read(octets, printed_by(command, octets))


def row_of(table, address):
    """The row that an address leads to, as a link's or as a device's; None where there is none."""
    return table.get(address) or next((row for row in table.values() if address in row.links), None)
