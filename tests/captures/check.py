"""Holds importers against the request: stored cases, made captures and drawn ones, settings files at fault.

python3 -m tests.captures.check --program CMD.. [--seed S] [--draws N]

A stored case is a folder of tests/captures/cases: `about` says in one line what it shows, `settings.hex`
and `capture.hex` are the two files, `records.hex` is what comes out, one record a line, and `stderr` the
last line on standard error. What the others give is worked out by reading.py, which must give the stored
cases too.
"""

import argparse
import concurrent.futures
import os
import pathlib
import shlex
import subprocess

from tests import ending, files
from tests.cases import read_hex
from tests.comparison import turns
from tools import bench_input as bench

from . import made, reading

CASES = pathlib.Path(__file__).resolve().parent / "cases"
RULES = ({}, dict(edition=2, protection=1), dict(query_retry=5), dict(network="06:00:00:00:00:ad"),
         dict(rsna=7))


def imported(command, settings, capture):
    """Standard output, the lines of standard error, and whether the end was none."""
    done = files.run(command, "import", settings, capture)
    lines = done.stderr.decode("utf-8", "replace").splitlines()
    return done.stdout, lines, done.returncode < 0 or done.returncode > 125


def difference(found, records, line):
    """What an importer did otherwise, or None."""
    printed, lines, broken = found
    if broken or lines[-1:] != [line]:
        return f"standard error ends in {lines[-1:]} instead of '{line}'"
    if printed != records:
        at = next((at for at, (one, other) in enumerate(zip(printed, records)) if one != other),
                  min(len(printed), len(records)))
        return f"{len(printed)} octets instead of {len(records)}, other from octet {at} on"
    return None


def stored():
    """Each stored case by name: the two files, the records and the last line."""
    for folder in sorted(path for path in CASES.iterdir() if path.is_dir()):
        octets = [read_hex((folder / f"{name}.hex").read_text())
                  for name in ("settings", "capture", "records")]
        yield f"case {folder.name}", *octets, (folder / "stderr").read_text().rstrip("\n")


def worked_out(draws, seed):
    """Each made capture, with settings of every length in turn."""
    for at, (name, capture) in enumerate(made.everything(draws, seed)):
        settings = bench.settings(bench.ACCESS_POINT, made.OWN, **RULES[at % len(RULES)])
        found = reading.read(settings, capture)
        yield name, settings, capture, found.records, reading.last_line(found)


def bad_settings():
    """Settings files that are no single settings record of a length that the bench takes."""
    good = bench.settings(bench.ACCESS_POINT, made.OWN)
    body = good[bench.HEAD:] + bytes(13)
    lengths = [length for length in range(26) if length not in (12, 14, 18, 24)]
    return [good[:length] for length in range(len(good))] + [
        good + b"\0", good + good, bench.clock(1), bench.frame(b""),
        bench.record(0, body[:12], mark=b"\x03\x0b"), bench.record(1, body[:9]), bench.record(2, body[:12]), bench.record(0, body[:12], length=14),
        *(bench.record(0, body[:length]) for length in lengths)]


def refuses_settings(command, settings):
    """One line on standard error, nothing on standard output."""
    printed, lines, broken = imported(command, settings, made.capture([]))
    good = not printed and len(lines) == 1 and not lines[0].startswith("import:") and not broken
    return None if good else f"settings {settings.hex()}: {len(printed)} octets, then {lines}"


def unplayed(command, job):
    """What comes out is a bench input: the program itself answers each event, and does not stop."""
    name, _, _, records, _ = job
    done = subprocess.run(command, input=records, capture_output=True, timeout=files.SECONDS)
    lines, events = done.stdout.splitlines(), sum(1 for _ in turns.records(records)) - 1
    good = len(lines) == events and b"stop" not in lines
    return None if good else f"{name}: {len(lines)} lines for {events} events"


def try_program(command, cases, jobs, pool):
    """The faults of one program, on the stored cases and all jobs."""
    tried = pool.map(lambda job: difference(imported(command, *job[1:3]), *job[3:]), jobs)
    faults = [f"{job[0]}: {fault}" for job, fault in zip(jobs, tried) if fault]
    faults += filter(None, pool.map(lambda job: unplayed(command, job), cases))
    faults += filter(None, pool.map(lambda settings: refuses_settings(command, settings), bad_settings()))
    missing = subprocess.run(command + ["import", "/no/such/file", os.devnull], capture_output=True,
                             timeout=files.SECONDS)
    if missing.stdout or missing.stderr.count(b"\n") != 1:
        faults.append(f"a settings file that is not there: {missing.stderr!r}")
    return [f"{command[0]}: {fault}" for fault in faults]


def main():
    parser = argparse.ArgumentParser(description=__doc__.splitlines()[0])
    parser.add_argument("--program", required=True, nargs="+", metavar="CMD")
    parser.add_argument("--seed", type=int, default=1)
    parser.add_argument("--draws", type=int, default=150)
    given = parser.parse_args()
    cases = list(stored())
    jobs = cases + list(worked_out(given.draws, given.seed))
    faults = []
    for name, settings, capture, *wanted in cases:
        found = reading.read(settings, capture)
        if wanted != [found.records, reading.last_line(found)]:
            faults.append(f"{name}: the reading gives other records or another line")
    with concurrent.futures.ThreadPoolExecutor(os.cpu_count()) as pool:
        for command in map(shlex.split, given.program):
            faults += try_program(command, cases, jobs, pool)
    ending.tell(f"{len(cases)} stored cases, {len(jobs) - len(cases)} made captures, "
                f"{len(bad_settings())} settings files at fault", faults)


if __name__ == "__main__":
    main()
