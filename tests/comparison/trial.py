"""Programs tried one by one on the generator's inputs: a check of each input, and counts of what came up.

A test names its check, which gives counts, events and a fault or None for one job and one command, and
what must come up how often for every 10,000 events: a test that nothing came up in has shown nothing.
"""

import argparse
import collections
import concurrent.futures
import os
import shlex

from tests import ending
from tools.scenario import answers

from . import generate


def checked(check, job, command):
    """The check of one job in a worker; what a program prints and should not is a fault."""
    try:
        counts, events, fault = check(job, command)
    except answers.BenchFault as trouble:
        counts, events, fault = collections.Counter(), 0, str(trouble)
    return counts, events, fault and f"{command[0]}: {job.name} ({job.kind}): {fault}"


def try_program(check, wanted, jobs, command):
    """The faults of one program; what came up is printed."""
    counts, total, faults = collections.Counter(), 0, []
    with concurrent.futures.ProcessPoolExecutor(os.cpu_count()) as pool:
        for found, events, fault in pool.map(checked, [check] * len(jobs), jobs, [command] * len(jobs),
                                             chunksize=2):
            counts.update(found)
            total += events
            faults += [fault] if fault else []
    print(f"{command[0]}: {total} events; " + ", ".join(f"{what} {counts[what]}" for what in wanted))
    least = {what: rate * total // 10_000 for what, rate in wanted.items()}
    return faults + [f"{command[0]}: {what} {counts[what]}, under {least[what]}" for what in wanted
                     if counts[what] < least[what]]


def main(name, about, check, wanted, skipped, count):
    """The command line of such a test; each program is given with its word for changes."""
    parser = argparse.ArgumentParser(description=about.splitlines()[0])
    parser.add_argument("--program", required=True, nargs="+", metavar="CMD")
    parser.add_argument("--seed", type=int, default=1)
    parser.add_argument("--count", type=int, default=count)
    given = parser.parse_args()
    jobs = [job for job in generate.plan(given.seed, given.count) if job.kind not in skipped]
    faults = []
    for program in given.program:
        faults += try_program(check, wanted, jobs, shlex.split(program))
    ending.tell(f"{name}, seed {given.seed}", faults)
