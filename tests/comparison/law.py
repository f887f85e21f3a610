"""Class 3 only after joining: the law, checked on runs from their input, lines and changes alone.

python3 -m tests.comparison.law --program CMD.. [--seed S] [--count N]

A CMD has its word for changes. A class 3 frame of version 0 that is not refused is admitted exactly if
its sender has an accepted association with no teardown after it, and that association came after an
accepted authentication with no deauthentication between them (history.py). Ad hoc networks are left out.
Class 3 frames are put into the generator's inputs so that each case comes up: they change no record.
"""

import collections

from tools import bench_input as bench

from . import generate, trial, turns
from .history import (ASSOCIATED, AUTHENTICATED, DEAUTHENTICATIONS, MOVED, SPARED, TEARDOWNS, device_of,
                      happenings)
from .walk import GROUPS, OWN, Dice

SKIPPED = ("damaged", "refused", "ad-hoc", "ad-hoc-full")
EDITION = 12  # where a settings record of 14 octets or more has it
PROBES = 40  # a class 3 frame behind so many events of a hundred
# What must come up, each so many times for every 10,000 events.
WANTED = {"admitted": 500, "discarded": 500, "stranger": 50, "authenticated only": 100,
          **{f"after {teardown}": 4 for teardown in TEARDOWNS}, "after a teardown of nothing": 50,
          "admitted after rejection in edition 2": 5,
          "admitted again": 100, "AP, edition 1": 100, "AP, edition 2": 100, "station, edition 1": 100,
          "station, edition 2": 100, "a link sends": 50, "a link is admitted": 20, "to a group": 50}
ROLES = {bench.ACCESS_POINT: "AP", bench.STATION: "station"}


def is_class_3(octets):
    """Of version 0: Action frames but an unprotected Public Action, Action No Ack, block ack and its
    request, PS-Poll, and data but subtype 13."""
    kind, subtype = octets[0] >> 2 & 3, octets[0] >> 4
    if octets[0] & 3:
        return False
    if kind == bench.MANAGEMENT:
        public = octets[24:25] == bytes((bench.PUBLIC,)) and not octets[1] & bench.PROTECTED
        return subtype == bench.ACTION_NO_ACK or subtype == bench.ACTION and not public
    return subtype in (8, 9, 10) if kind == bench.CONTROL else kind == bench.DATA and subtype != 13


def authenticated_before(history):
    """An accepted authentication with no deauthentication behind it."""
    for what in reversed(history):
        if what in DEAUTHENTICATIONS:
            return False
        if what == AUTHENTICATED:
            return True
    return False


def joined(history):
    """An accepted association with no teardown after it, that came after an accepted authentication with
    no deauthentication between them."""
    for at in range(len(history) - 1, -1, -1):
        if history[at] in TEARDOWNS:
            return False
        if history[at] == ASSOCIATED and authenticated_before(history[:at]):
            return True
    return False


def case_of(history):
    """For the count: what a discard came after, and whether that ended a join."""
    for at in range(len(history) - 1, -1, -1):
        if history[at] in TEARDOWNS:
            return f"after {history[at]}" if joined(history[:at]) else "after a teardown of nothing"
    return "authenticated only" if AUTHENTICATED in history else "stranger"


def count(counts, settings, turn, device, history):
    admitted = turn.answer.verdict == "A"
    linked = device != turn.event.body[10:16]
    counts["admitted" if admitted else "discarded"] += 1
    counts[f"{ROLES[settings.role]}, edition {settings.edition}"] += 1
    counts["a link sends"] += linked
    counts["a link is admitted"] += linked and admitted
    counts["to a group"] += turn.event.body[4] & 1
    if not admitted:
        counts[case_of(history)] += 1
        return
    last = len(history) - 1 - history[::-1].index(ASSOCIATED)
    counts["admitted after rejection in edition 2"] += SPARED in history[last:]
    counts["admitted again"] += any(what in TEARDOWNS for what in history)


def probe(dice, sender):
    """A frame of class 3 that does nothing: to us or to a group, of each kind."""
    receiver = OWN if dice.chance(85) else dice.of(GROUPS)
    shape = dice.below(5)
    if shape == 0:
        return bench.frame(bench.control(dice.of((8, 9, 10)), receiver, sender))
    if shape == 1:
        flags = dice.of((0, bench.PROTECTED))
        category = dice.of((bench.PUBLIC, 0)) if flags else dice.of((0, 5, 127))
        return bench.frame(bench.action(receiver, sender, bytes((category, 0)), flags=flags))
    if shape == 2:
        return bench.frame(bench.action(receiver, sender, b"\4", bench.ACTION_NO_ACK))
    return bench.frame(bench.data(receiver, sender, subtype=dice.of((0, 4, 8, 12, 14)), to_ds=dice.below(2)))


def named(event):
    """The address that an event names and a frame can come from, or none."""
    if event.kind == bench.FRAME:
        return event.body[10:16]
    return event.body[1:7] if event.kind == bench.PRIMITIVE else b""


def probed(dice, octets):
    """The input with class 3 frames among its events, from whom they are about or were about lately."""
    records, lately = [], collections.deque(maxlen=12)
    for event in turns.records(octets):
        records.append(bench.record(*event))
        if len(named(event)) == 6:
            lately.append(named(event))
        if lately and dice.chance(PROBES):
            records.append(probe(dice, lately[-1] if dice.chance(60) else dice.of(lately)))
        if event.kind == bench.CLOCK and dice.chance(PROBES):
            records += (probe(dice, sender) for sender in dict.fromkeys(lately))
    return b"".join(records)


def in_edition(edition, octets):
    """The input in this edition, where its settings record says one; one that does not is of the first."""
    at = bench.HEAD + EDITION
    return octets[:at] + bytes((edition,)) + octets[at + 1:] if octets[3] > EDITION else octets


def check(job, command):
    """One input: every class 3 frame by the law. The editions take turns. Runs in a worker."""
    counts, histories = collections.Counter(), collections.defaultdict(list)
    octets = in_edition(1 + job.seed % 2, generate.make(job))
    settings, played = turns.play(command, probed(Dice(job.seed), octets))
    for turn in played if settings.role in ROLES else []:
        if turn.event.kind == bench.FRAME and not turn.answer.refusal and is_class_3(turn.event.body):
            device = device_of(turn.before, turn.event.body[10:16])
            history = histories[device]
            if (turn.answer.verdict == "A") != joined(history):
                return counts, len(played), f"event {turn.answer.number}, after {history}: {turn.answer}"
            count(counts, settings, turn, device, history)
        for happening in happenings(settings, turn):
            if settings.role == bench.STATION and happening.what == ASSOCIATED:
                for device, history in histories.items():
                    history += [MOVED] if device != happening.device else []
            histories[happening.device].append(happening.what)
    return counts, len(played), None


if __name__ == "__main__":
    trial.main("class 3 only after joining", __doc__, check, WANTED, SKIPPED, 30_000)
