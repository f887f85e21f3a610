"""One long step or several short: generated inputs whose clock steps are cut anew end alike.

python3 -m tests.comparison.steps --program CMD.. [--seed S] [--count N]

A CMD has its word for changes. Steps that follow one another, of a sum of at most 65,535 that reaches
no retry of a running query, give way to other steps of the same sum. Behind them the table must be the
same, and so must their reports together, sorted by place, octet for octet; and every other event must
get the same answer, octets and table. All this is read off the lines and changes of the one program.
"""

import collections
import itertools

from tools import bench_input as bench

from . import generate, trial, turns
from .walk import LONGEST_STEP, Dice

REPORT = 8
RUNNING = (1, 2)
SKIPPED = ("damaged", "refused")
# What must come up, each so many times for every 10,000 events.
WANTED = {"lists cut anew": 100, "several steps into one": 1, "kind 1": 10, "kind 2": 2, "kind 3": 2, "kind 5": 2,
          "a query runs on": 1, "a record freed": 10, "reports out of order": 1, "left as they were, a retry": 2}


def step_of(turn):
    """The TU of a clock step that was taken, or 0."""
    taken = turn.event.kind == bench.CLOCK and not turn.answer.refusal
    return int.from_bytes(turn.event.body, "little") if taken else 0


def reaches_retry(settings, table, step):
    """Whether some running query has a multiple of the retry time, below the maximum, within the step."""
    for row in table.values():
        passed = settings.query_maximum - row.query_left
        due = passed - passed % settings.query_retry + settings.query_retry
        if row.query in RUNNING and due <= passed + step and due < settings.query_maximum:
            return True
    return False


def groups(settings, played):
    """The turns in lists: steps that may be cut anew together, and all others alone, in their order."""
    group, total = [], 0
    for turn in played:
        step = step_of(turn)
        longer = total + step
        if group and step and longer <= LONGEST_STEP and not reaches_retry(settings, group[0].before, longer):
            group, total = group + [turn], longer
            continue
        if group:
            yield group
        group, total = [turn], step
        if not step or reaches_retry(settings, turn.before, step):
            yield group
            group, total = [], 0
    if group:
        yield group


def cut(dice, table, total):
    """Steps of this sum: the cuts are at some time's end, just before or behind it, or anywhere."""
    ends = [time + more for row in table.values() for time in (row.left, row.hold, row.query_left)
            for more in (-1, 0, 1) if 0 < time + more < total]
    cuts = {0, total}
    for _ in range(dice.of((0, 0, 1, 1, 2, 3, 4)) if total > 1 else 0):
        cuts.add(dice.of(ends) if ends and dice.chance(70) else 1 + dice.below(total - 1))
    return [after - before for before, after in itertools.pairwise(sorted(cuts))]


def reports(group):
    """The reports of all steps, one after the other, each of eight octets."""
    octets = b"".join(turn.answer.octets for turn in group)
    return [octets[at:at + REPORT] for at in range(0, len(octets), REPORT)]


def by_place(group):
    return sorted(reports(group), key=lambda report: report[0])


def difference(group, other):
    """What is not the same of a list of turns and the one in its place, or None."""
    if not step_of(group[0]) or len(group) == len(other) == 1:
        for turn, again in zip(group, other):
            if turn.answer._replace(number=0) != again.answer._replace(number=0):
                return f"event {turn.answer.number}: {turn.answer}, and with other steps {again.answer}"
    elif any(not step_of(turn) for turn in other):
        return f"a step of those for event {group[0].answer.number} is refused"
    if by_place(group) != by_place(other):
        return f"event {group[0].answer.number}: reports {reports(group)} and {reports(other)}"
    if group[-1].answer.table != other[-1].answer.table:
        return f"event {group[0].answer.number}: other steps leave another table"
    return None


def count(counts, settings, group, other):
    """What a list cut anew was about."""
    if not step_of(group[0]):
        return
    counts["left as they were, a retry"] += reaches_retry(settings, group[0].before, step_of(group[0]))
    if [step_of(turn) for turn in group] == [step_of(turn) for turn in other]:
        return
    after = other[-1].answer.table
    counts["lists cut anew"] += 1
    counts["several steps into one"] += len(group) > len(other) == 1
    counts["a query runs on"] += any(row.query in RUNNING for row in after.values())
    counts["a record freed"] += len(after) < len(group[0].before)
    counts["reports out of order"] += reports(other) != by_place(other)
    counts.update({f"kind {report[1]}" for report in reports(other)})


def check(job, command):
    """One input, as it is and with its steps cut anew. Runs in a worker: counts, events and a fault."""
    octets, dice, counts = generate.make(job), Dice(job.seed), collections.Counter()
    settings, played = turns.play(command, octets)
    lists = list(groups(settings, played))
    records, ends = [octets[:bench.HEAD + octets[3]]], []
    for group in lists:
        total = sum(map(step_of, group))
        if total and not reaches_retry(settings, group[0].before, total):
            records += map(bench.clock, cut(dice, group[0].before, total))
        else:
            records += (bench.record(*turn.event) for turn in group)
        ends.append(len(records) - 1)
    _, again = turns.play(command, b"".join(records))
    if len(again) != len(records) - 1:
        return counts, len(again), f"{len(again)} answers to {len(records) - 1} events"
    for group, start, end in zip(lists, [0] + ends, ends):
        fault = difference(group, again[start:end])
        if fault:
            return counts, len(again), fault
        count(counts, settings, group, again[start:end])
    return counts, len(again), None


if __name__ == "__main__":
    trial.main("steps cut anew", __doc__, check, WANTED, SKIPPED, 30_000)
