"""Reads what the bench program says of an event, but for the table, into an answer with its reason."""

import collections
import functools
import re

from .rows import MOST_KEPT, WAIT, BenchFault, odd, records  # the fault is known by this module too

# The table is by address, in no order; changed are the addresses whose records are not as they were, by place. The reason is the
# rule that decided, with its value.
Answer = collections.namedtuple(
    "Answer", "number refusal verdict notice code written ds state octets current table changed reason value")

LINE = re.compile(r"\d+ [AD-] \d+ \d+ \d+ [JL-] \d+")
WHY = re.compile(r"(?:refusal-[1-9]|no-class|class-filter|group-rule|nothing-to-do|none) \d+")
N = r"(\d{1,20})"
SAID = re.compile(rf"{N} ([AD-]) {N} {N} {N} ([JL-]) {N}(?:\n  octets ((?:[0-9a-f]{{2}})+))?(?:\n  current ([0-9a-f]{{12}}))?"
                  rf"(?:\n  because (refusal-[1-9]|no-class|class-filter|group-rule|nothing-to-do) {N})?")
# The one reason whose value runs down.
HELD = "refusal-8"
DISCARDS = {"no-class", "class-filter", "group-rule"}
# What of an event its words depend on, by the reason: a field of it, the record where the reason is not named here.
TOLD_BY = {"none": "gist", "no-class": "gist", "class-filter": "gist", "nothing-to-do": "idle"}


def _unread(number, said):
    """The fault of the first line that is none of an answer, in its place."""
    found = SAID.match(said)
    at = said.count("\n", 0, found.end() + 1) if found else 0
    line = said.split("\n")[at]
    return odd(line if at else f"{number} {line}")


@functools.lru_cache(None)
def fits(refusal, verdict, reason):
    """Whether a reason is one that an answer with this refusal and verdict can have."""
    if reason.startswith("refusal-") or refusal:
        return reason == f"refusal-{refusal}"
    return (verdict == "D") == (reason in DISCARDS) and (reason != "nothing-to-do" or verdict == "A")


class Outcome:
    """What an event came to, but for the table: the answer's fields between its number and the table, and its reason. Each is
    made once for its text, so that it can stand for that in a key. Where its value is a time, words are told of the one like it
    that has a sign for this, and the times are that sign with what it stands for."""

    __slots__ = "fields", "refusal", "reason", "value", "told_by", "like", "times"

    def __init__(self, number, said):
        found = SAID.fullmatch(said)
        if not found:
            raise _unread(number, said)
        refusal, verdict, notice, code, written, ds, state, octets, current, reason, value = found.groups()
        self.fields = (int(refusal), verdict, int(notice), int(code), int(written), ds, int(state),
                       bytes.fromhex(octets or ""), bytes.fromhex(current) if current else None)
        self.refusal, self.reason, self.value = int(refusal), reason or "none", int(value or 0)
        if not fits(self.refusal, verdict, self.reason):
            raise BenchFault(f"the bench program's answer and reason differ at event {number}: {self.reason}")
        self.told_by = TOLD_BY.get(self.reason, "record")
        # Not itself, which would keep it for ever.
        self.like, self.times = None, ()
        if self.reason == HELD:
            self.like, self.times = _held(self.fields), ((WAIT, f"{self.value:,}"),)

    def answer(self, number, table, changed):
        return Answer(number, *self.fields, table, changed, self.reason, self.value)


@functools.lru_cache(MOST_KEPT)
def _held(fields):
    """The outcome with these fields of an event that has to wait, however long."""
    made = Outcome.__new__(Outcome)
    made.fields, made.reason, made.value = fields, HELD, WAIT
    return made


def changed_of(pairs):
    """The addresses of rows that are not as they were."""
    return tuple([old.address or new.address for (old, _), (new, _) in pairs])


def read(turn):
    """An event that was played, its answer, and the table before it."""
    event, number, outcome, before, after, changed = turn
    table = records(before)
    return event, outcome.answer(number, records(after) if changed else table, changed_of(changed)), table


def device(address, table):
    """The device that has this address as a link; the address itself where none has."""
    if address is None or address in table:
        return address
    return next((record.address for record in table.values() if address in record.links), address)
