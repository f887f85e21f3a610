"""Another maker's log: what `check INPUT LOG` says of stored logs, of logs that are right, and of every
single-octet change of some.

python3 -m tests.comparison.logs --program CMD.. [--seed S] [--count N] [--every]

A stored log is a folder of tests/checks: `about` says in one line what it shows, `case` names the case of
tests/cases whose input it stands beside, `log` is the log, and `said` the line that is printed. What is to
be said of all others is worked out here from our own lines and the log, both whole: line by line, and in a
line piece by piece; the stored ones must come out so too. An octet is changed into a blank, a line's end, a
digit, a letter and one that no log has, and blanks and lines' ends are put in; with --every it is each octet
that there is.
"""

import argparse
import concurrent.futures
import os
import pathlib
import shlex
import subprocess

from tests import ending, files
from tests.cases import CASES, read_hex

from . import generate
from .walk import Dice

CHECKS = pathlib.Path(__file__).resolve().parents[1] / "checks"
FIELDS = "number refusal verdict notice code written ds state".split()
# Stored logs that are changed: the nine steps, and one that stops.
CHANGED = ("nine_steps", "stop_cut_body")
BREAKS, OCTETS = b" \n", b" \n7D\r"


def verdict(ours, log):
    """`right`, or the first line that is other and its field, or where the log is short or long."""
    lines, logged = ours.split(b"\n")[:-1], log.split(b"\n")
    ended = [(line, True) for line in logged[:-1]] + ([(logged[-1], False)] if logged[-1] else [])
    for at, line in enumerate(lines):
        if at == len(ended):
            return f"short {at}"
        if ended[at] != (line, True):
            return f"differs {at + 1} {field_of(line.split(b' '), ended[at][0].split(b' '))}"
    return f"long {len(lines)}" if len(ended) > len(lines) else "right"


def field_of(pieces, logged):
    """The first piece that is other or missing; where all are equal the form is."""
    for at, piece in enumerate(pieces):
        if logged[at:at + 1] != [piece]:
            return FIELDS[at]
    return "form"


def changes(log, every):
    """Every log that is another by one octet: changed, taken away, put in; and every beginning of it."""
    put, change = (range(256), range(256)) if every else (BREAKS, OCTETS)
    for at in range(len(log) + 1):
        yield log[:at]
        yield log[:at] + log[at + 1:]
        for value in put:
            yield log[:at] + bytes((value,)) + log[at:]
        for value in change:
            if log[at:at + 1] not in (b"", bytes((value,))):
                yield log[:at] + bytes((value,)) + log[at + 1:]


def line_changes(log):
    """Lines taken away, given twice, exchanged, and more behind the last."""
    lines = log.splitlines(keepends=True)
    for at in range(len(lines)):
        yield b"".join(lines[:at] + lines[at + 1:])
        yield b"".join(lines[:at + 1] + lines[at:])
        yield b"".join(lines[:at] + lines[at:at + 2][::-1] + lines[at + 2:])
    for more in (b"\n", b"stop\n", b"stop", b" ", b"10 0 - 0 0 0 - 0\n", log):
        yield log + more


def case(folder):
    """The input of a stored case, and our lines."""
    return read_hex((folder / "input.hex").read_text()), (folder / "stdout").read_bytes()


def stored():
    """Every stored log by name: input, our lines, log, and what is said."""
    for folder in sorted(path for path in CHECKS.iterdir() if path.is_dir()):
        octets, ours = case(CASES / (folder / "case").read_text().strip())
        yield folder.name, octets, ours, (folder / "log").read_bytes(), (folder / "said").read_text()


def changed(every):
    """Every stored case with its own log; some with every change of it. Input, our lines, log."""
    for folder in sorted(path for path in CASES.iterdir() if path.is_dir()):
        octets, log = case(folder)
        yield octets, log, log
        if folder.name in CHANGED:
            for other in (*changes(log, every), *line_changes(log)):
                yield octets, log, other


def generated(command, seed, count):
    """The generator's files with a program's own lines, as they are, with an octet changed, and cut."""
    for job in generate.plan(seed, count):
        octets, dice = generate.make(job), Dice(job.seed)
        log = subprocess.run(command, input=octets, capture_output=True, timeout=files.SECONDS).stdout
        yield octets, log, log
        if job.kind == "damaged":
            continue
        at = dice.below(len(log) + 1)
        yield octets, log, log[:at] + bytes((dice.of(OCTETS),)) + log[at + dice.below(2):]
        yield octets, log, log[:at]


def said(command, octets, log):
    """What the program says of a log, or how it ended."""
    done = files.run(command, "check", octets, log)
    return done.stdout.decode("utf-8", "replace") or f"status {done.returncode}: {done.stderr!r}"


def try_program(command, jobs, pool):
    """The faults of one program."""
    faults, tried = [], pool.map(lambda job: said(command, job[0], job[2]), jobs)
    for (octets, ours, log), printed in zip(jobs, tried):
        wanted = verdict(ours, log) + "\n"
        if printed != wanted:
            faults.append(f"{command[0]}: {printed!r} instead of {wanted!r} of {log[-200:]!r}, "
                          f"ours {ours[-200:]!r}, input {octets[:60].hex()}")
    return faults


def main():
    parser = argparse.ArgumentParser(description=__doc__.splitlines()[0])
    parser.add_argument("--program", required=True, nargs="+", metavar="CMD")
    parser.add_argument("--seed", type=int, default=1)
    parser.add_argument("--count", type=int, default=6_000)
    parser.add_argument("--every", action="store_true")
    given = parser.parse_args()
    commands = [shlex.split(program) for program in given.program]
    kept = list(stored())
    faults = [f"{name}: worked out as {verdict(ours, log)}, stored as {line.strip()}"
              for name, _, ours, log, line in kept if verdict(ours, log) + "\n" != line]
    jobs = [(octets, ours, log) for _, octets, ours, log, _ in kept]
    jobs += changed(given.every)
    jobs += generated(commands[0], given.seed, given.count)
    with concurrent.futures.ThreadPoolExecutor(os.cpu_count()) as pool:
        for command in commands:
            faults += try_program(command, jobs, pool)
    kinds = sorted({verdict(ours, log).split(" ")[0] for _, ours, log in jobs})
    ending.tell(f"{len(jobs)} logs checked, {len(kept)} of them stored: {', '.join(kinds)}", faults)


if __name__ == "__main__":
    main()
