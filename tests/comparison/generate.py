"""Writes seeded bench inputs: python3 -m tests.comparison.generate SEED COUNT DIR [--kind NAME].

About COUNT events, as many files DIR/0001.in and on, since the settings record comes first
and only there. The same seed, count and kind give the same octets on any machine.
"""

import argparse
import collections
import pathlib

from tools import bench_input as bench

from . import (walk_ad_hoc, walk_ap, walk_damage, walk_link, walk_query, walk_station,
               walk_sweep)
from .walk import GROUPS, NETWORK, OWN, Dice, Walk

# Events of one input; a walk or a sweep may make a few more.
WALK_EVENTS = 1000
FULL_EVENTS = 400
REFUSED_EVENTS = 25
LONGEST_HOLD_EVENTS = 65544
IDENTIFIERS_EVENTS = 131083
SWEEP_EVENTS = 968
KINDS = ("ap", "station", "ad-hoc", "links", "ap-full", "station-full", "ad-hoc-full", "links-full",
         "refused", "damaged", "sweep", "longest-hold", "identifiers")
# One round of walks; a plan repeats it until the count is reached.
ROUND = ("ap", "station", "ad-hoc", "links", "ap", "station", "links", "ap", "station", "ap-full", "ap",
         "station", "ad-hoc", "station-full", "links", "links-full", "ap", "station", "ad-hoc-full")
# For each walk its role, its moves, and how often its settings record has 24 octets.
WALKS = {"ap": (bench.ACCESS_POINT, walk_ap, 10), "station": (bench.STATION, walk_station, 10),
         "ad-hoc": (bench.AD_HOC, walk_ad_hoc, 100), "links": (bench.ACCESS_POINT, walk_link, 10)}
TIMEOUTS = (1, 2, 3, 10, 50, 100, 100, 500, 1000, 1954, 30000, 65534, 65535)
CROWD = 33
# Edition and protection; without them the settings record has 12 octets. Behind them a query's times,
# in the record of 18, and a network's address, in that of 24. Two roles do not look at it, and in the
# third it may be our own.
RULES = ((), (1, 0), (1, 1), (2, 0), (2, 0), (2, 1), (2, 1), (2, 1), (2, 1), (2, 1))
QUERY_TIMES = (1, 2, 3, 5, 7, 10, 10, 20, 30, 100, 201, 1000, 65534, 65535)
NETWORKS = (NETWORK, NETWORK, OWN, bench.address("02:00:00:00:01:00"), bench.address("fe:ff:ff:ff:ff:ff"))

Job = collections.namedtuple("Job", "name kind seed index events")


def plan(seed, count, kind=None):
    """The inputs to make, in order; each can be made apart from the others."""
    jobs = []

    def add(job_kind, index, events):
        name = f"{len(jobs) + 1:04d}"
        jobs.append(Job(name, job_kind, seed * 1_000_003 + len(jobs), index, events))

    if kind in (None, "damaged"):
        for index in range(len(walk_damage.damaged_inputs())):
            add("damaged", index, 0)
    if kind in (None, "refused"):
        for index in range(len(walk_damage.OUT_OF_RANGE)):
            add("refused", index, REFUSED_EVENTS)
    if kind == "sweep" or kind is None and count > 2 * SWEEP_EVENTS * len(walk_sweep.SWEEPS):
        for index in range(len(walk_sweep.SWEEPS)):
            add("sweep", index, SWEEP_EVENTS)
    if kind == "longest-hold" or kind is None and count > 4 * LONGEST_HOLD_EVENTS:
        add("longest-hold", 0, LONGEST_HOLD_EVENTS)
    planned = sum(job.events for job in jobs)
    # So long that it comes on top, or there would be no room for the walks.
    if kind == "identifiers" or kind is None and count > 2 * IDENTIFIERS_EVENTS:
        add("identifiers", 0, IDENTIFIERS_EVENTS)
    walks = [name for name in ROUND if kind in (None, name)]
    while walks and planned < count:
        for walk_kind in walks:
            usual = FULL_EVENTS if walk_kind.endswith("full") else WALK_EVENTS
            events = min(usual, count - planned)
            if events > 0:
                add(walk_kind, len(jobs), events)
                planned += events
    return jobs


def rule_of(dice, role, percent):
    """Edition and protection, for most of those that have them a query's times too, and for some
    percent all of it with a network's address."""
    rule = dice.of(RULES)
    if dice.chance(percent):
        network = dice.of(NETWORKS if role == bench.AD_HOC else NETWORKS + GROUPS + (bench.ZERO,))
        return (*(rule or (1, 0)), dice.of(QUERY_TIMES), dice.of(QUERY_TIMES), network)
    return (*rule, dice.of(QUERY_TIMES), dice.of(QUERY_TIMES)) if rule and dice.chance(75) else rule


def walked(job, dice):
    """A guided walk: settings drawn, a crowd put in where the kind asks for one, then steps."""
    full = job.kind.endswith("-full")
    role, moves, percent = WALKS[job.kind[:-len("-full")] if full else job.kind]
    peers = CROWD + dice.below(8) if full else dice.of((1, 2, 3, 4, 5, 6, 6, 7, 8, 9, 12))
    timeouts = dice.of(TIMEOUTS), dice.of(TIMEOUTS)
    if full and role != bench.ACCESS_POINT:
        timeouts = dice.of((20, 1000, 65535)), timeouts[1]
    walk = Walk(dice, role, peers, dice.below(2), timeouts, rule_of(dice, role, percent))
    if full:
        moves.fill(walk)
    while walk.events() < job.events:
        moves.step(walk)
    return walk.octets()


def make(job):
    """The octets of one input."""
    if job.kind == "damaged":
        return walk_damage.damaged_inputs()[job.index]
    dice = Dice(job.seed)
    if job.kind == "refused":
        return walk_damage.refused_walk(dice, job.index, job.events)
    if job.kind == "sweep":
        return walk_sweep.swept(dice, job.index)
    if job.kind == "longest-hold":
        walk = Walk(dice, bench.STATION, 1, 0, (100, 100))
        walk_station.longest_hold(walk)
        return walk.octets()
    if job.kind == "identifiers":
        walk = Walk(dice, bench.ACCESS_POINT, 1, 0, (100, 100), (2, 1))
        walk_query.every_identifier(walk)
        return walk.octets()
    return walked(job, dice)


def main():
    parser = argparse.ArgumentParser(description=__doc__.splitlines()[0])
    parser.add_argument("seed", type=int)
    parser.add_argument("count", type=int)
    parser.add_argument("dir", type=pathlib.Path)
    parser.add_argument("--kind", choices=KINDS)
    given = parser.parse_args()
    given.dir.mkdir(parents=True, exist_ok=True)
    jobs = plan(given.seed, given.count, given.kind)
    for job in jobs:
        (given.dir / f"{job.name}.in").write_bytes(make(job))
    print(f"{len(jobs)} inputs in {given.dir}")


if __name__ == "__main__":
    main()
