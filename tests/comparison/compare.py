"""Runs two programs on generated bench inputs and compares what they print, octet for octet.

python3 -m tests.comparison.compare --left CMD --right CMD [--seed S] [--count N] [--kind NAME]
                                    [--trace | --why | --changes] [--keep DIR]

With --trace the left command gets the argument `trace` and the right `-v`. With --why both get `why`,
and the reasons that they print are held against the right's lines and tables (reasons.py). With --changes
both get `changes`, and what each prints is held against its own trace and reasons (changes.py). Ends with
1 where any output differs, where a reason does not agree with its answer or changes with their trace and
reason, or where some value that a line can hold was never seen.
"""

import argparse
import collections
import concurrent.futures
import os
import pathlib
import re
import shlex
import subprocess
import sys
import tempfile

from . import changes, generate, reasons

LINE = re.compile(rb"^(\d+) (\d+) (\S) (\d+) (\d+) (\d+) (\S) (\d+)$", re.MULTILINE)
EVENT = re.compile(rb"^(\d+) (?:\d+ \S \d+ \d+ \d+ \S|\S+) \d+$")
# Field of a line, what it is, and every value that must be seen.
WANTED = ((1, "refusal", "0 2 3 4 5 6 7 8 9".split()), (2, "verdict", ["A", "D", "-"]),
          (3, "notice", [str(n) for n in range(11)]),
          (5, "written", "0 8 16 26 28 30 34 37".split()), (6, "DS", ["J", "L", "-"]),
          (7, "state", [str(n) for n in range(5)]))
REASON = re.compile(rb"^(\d+) (\S+) (\d+)$", re.MULTILINE)
REASONS_WANTED = ((1, "reason", list(reasons.WORDS)),)
# The lines behind an event's own, of which every first word must be seen.
SHOWN = re.compile(rb"^(  )(\w+) ", re.MULTILINE)
SHOWN_WANTED = ((1, "shown", "octets current because free place links query".split()),)
# For each way to print the words that ask the left and the right program for it, and the lines looked at,
# those of the events first, with what is wanted of them.
ASKED = {"plain": ([], []), "trace": (["trace"], ["-v"]), "why": (["why"], ["why"]),
         "changes": (["changes"], ["changes"])}
LOOKED_AT = {"plain": ((LINE, WANTED),), "trace": ((LINE, WANTED),), "why": ((REASON, REASONS_WANTED),),
             "changes": ((LINE, WANTED), (SHOWN, SHOWN_WANTED))}
EXEMPT = "refusal 1 is exempt: the bench lends 256 bytes to every event"
SECONDS = 120

Outcome = collections.namedtuple("Outcome", "name kind lines counts fault octets")


def run(command, octets):
    """Standard output, and a word on how it ended where that was no ordinary end."""
    try:
        done = subprocess.run(command, input=octets, capture_output=True, timeout=SECONDS)
    except subprocess.TimeoutExpired:
        return b"", f"no end after {SECONDS} s"
    if done.returncode < 0 or done.returncode > 125:
        return done.stdout, f"ended with {done.returncode}: {done.stderr[-200:]!r}"
    return done.stdout, ""


def first_difference(left, right):
    """The number of the line, the event it belongs to, and the two lines. Where one goes on and the other begins the next event, the line
    that one has more belongs to the event before."""
    event = b"0"
    lefts, rights = left.split(b"\n"), right.split(b"\n")
    for at in range(max(len(lefts), len(rights))):
        pair = [lines[at] if at < len(lines) else None for lines in (lefts, rights)]
        begins = [EVENT.match(line) for line in pair if line]
        event = begins[0].group(1) if begins and all(begins) else event
        if pair[0] != pair[1]:
            shown = ["(ended)" if line is None else line.decode("latin-1") for line in pair]
            return at + 1, event.decode(), *shown
    return 0, "0", "", ""


def count_lines(output, way):
    """How many events have a line, and how often each value was seen."""
    counts, events = collections.Counter(), None
    for pattern, wanted in LOOKED_AT[way]:
        lines = pattern.findall(output)
        events = len(lines) if events is None else events
        for field, what, _ in wanted:
            counts.update((what, line[field].decode()) for line in lines)
    return events, counts


def unreasoned(octets, said, right):
    """What is wrong with the reasons, by the lines and tables of the right command."""
    printed, end = run(right + ["changes"], octets)
    return f"right {end}" if end else reasons.check(octets, said.decode("ascii"), printed.decode("ascii"))


def unfounded(octets, said, left, right):
    """What is wrong with the changes that both print, by the trace and the reasons of each."""
    for side, command, trace in (("left", left, "trace"), ("right", right, "-v")):
        (printed, end), (why, why_end) = run(command + [trace], octets), run(command + ["why"], octets)
        fault = end or why_end or changes.check(*(text.decode("ascii") for text in (said, printed, why)))
        if fault:
            return f"{side}: {fault}"
    return None


def compare(job, left, right, way):
    """One input through both programs in a way to print, and what they print so beside what they print in
    others. Runs in a worker, so it returns plain values."""
    octets = generate.make(job)
    (left_out, left_end), (right_out, right_end) = (
        run(command + words, octets) for command, words in zip((left, right), ASKED[way]))
    fault = None
    if left_end or right_end:
        fault = f"left {left_end or 'ended well'}, right {right_end or 'ended well'}"
    elif left_out != right_out:
        line, event, left_line, right_line = first_difference(left_out, right_out)
        fault = (f"differs at line {line}, event {event}\n"
                 f"  left  {left_line}\n  right {right_line}")
    elif way == "why":
        fault = unreasoned(octets, left_out, right)
    elif way == "changes":
        fault = unfounded(octets, left_out, left, right)
    lines, counts = count_lines(left_out, way)
    if fault is None and job.kind != "damaged" and lines < job.events:
        fault = f"only {lines} lines for at least {job.events} events"
    return Outcome(job.name, job.kind, lines, counts, fault, octets if fault else b"")


def print_counts(counts, way):
    """The table of what was seen; returns what never was."""
    missing = []
    for _, what, values in (one for _, wanted in LOOKED_AT[way] for one in wanted):
        seen = {value: n for (named, value), n in counts.items() if named == what}
        print(f"{what:8}" + "  ".join(f"{value}:{seen[value]}" for value in sorted(seen)))
        missing += [f"{what} {value}" for value in values if value not in seen]
    print(EXEMPT)
    return missing


def arguments():
    parser = argparse.ArgumentParser(description=__doc__.splitlines()[0])
    parser.add_argument("--left", required=True)
    parser.add_argument("--right", required=True)
    parser.add_argument("--seed", type=int, default=1)
    parser.add_argument("--count", type=int, default=300_000)
    parser.add_argument("--kind", choices=generate.KINDS, help="only inputs of this kind")
    shown = parser.add_mutually_exclusive_group()
    for way in ("trace", "why", "changes"):
        shown.add_argument(f"--{way}", dest="way", action="store_const", const=way, default="plain")
    parser.add_argument("--keep", type=pathlib.Path, help="where inputs that differ are kept")
    return parser.parse_args()


def main():
    given = arguments()
    left, right = shlex.split(given.left), shlex.split(given.right)
    jobs = generate.plan(given.seed, given.count, given.kind)
    counts, events, faults = collections.Counter(), 0, []
    with concurrent.futures.ProcessPoolExecutor(os.cpu_count()) as pool:
        for outcome in pool.map(compare, jobs, [left] * len(jobs), [right] * len(jobs),
                                [given.way] * len(jobs), chunksize=4):
            counts.update(outcome.counts)
            events += outcome.lines
            if outcome.fault:
                faults.append(outcome)
    print(f"seed {given.seed}: {len(jobs)} inputs, {events} events compared")
    missing = print_counts(counts, given.way)
    if faults:
        keep = given.keep or pathlib.Path(tempfile.mkdtemp(prefix="compare-"))
        keep.mkdir(parents=True, exist_ok=True)
        for outcome in faults:
            path = keep / f"{given.seed}-{outcome.name}.in"
            path.write_bytes(outcome.octets)
            print(f"input {outcome.name} ({outcome.kind}) {outcome.fault}\n  kept as {path}")
        print(f"FAILED: {len(faults)} of {len(jobs)} inputs differ")
    if missing and given.kind is None:
        print("FAILED: never seen: " + ", ".join(missing))
    sys.exit(1 if faults or missing and given.kind is None else 0)


if __name__ == "__main__":
    main()
