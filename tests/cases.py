"""Runs the stored cases, in each way to print that is asked for.

python3 -m tests.cases --bench CMD [--trace-too[=WORD]] [--why[=WORD]] [--changes] [NAME ...]

A case is a folder of tests/cases: `about` says in one line what it shows, `input.hex` is the
bench input, one record a line and `#` to the end of a line a comment, `stdout` is what the
rules give, worked out by hand. With --trace-too each case is run once more with the argument
WORD (`trace` if not given): the lines of its events among the trace must be the same ones.
A case may have a file `why` beside: with --why it is run with the argument WORD (`why` if not
given), and must print that file. With --changes, beside both of them, each case is run with the
argument `changes` too: what it prints must agree with its trace and reasons (comparison/changes.py).
"""

import argparse
import concurrent.futures
import os
import pathlib
import re
import shlex
import subprocess
import sys

from .comparison import changes

CASES = pathlib.Path(__file__).resolve().parent / "cases"
LINE = re.compile(r"\d+ \d+ [AD-] \d+ \d+ \d+ [JL-] \d+|stop")
SECONDS = 60


def read_hex(text):
    """The octets of an input.hex; blanks are for the reader, `00*9` is nine octets 00."""
    octets = b""
    for word in " ".join(line.split("#", 1)[0] for line in text.splitlines()).split():
        digits, _, times = word.partition("*")
        octets += bytes.fromhex(digits) * int(times or 1)
    return octets


def run(command, octets):
    done = subprocess.run(command, input=octets, capture_output=True, timeout=SECONDS)
    return done.stdout.decode("latin-1")


def without_trace(output):
    """Only the lines that the program would print without a trace."""
    return "".join(line + "\n" for line in output.splitlines() if LINE.fullmatch(line))


def difference(expected, printed):
    """The first line that is not as expected, both ways round; None where all are."""
    if expected == printed:
        return None
    wanted, got = expected.split("\n"), printed.split("\n")
    for at, (one, other) in enumerate(zip(wanted, got), 1):
        if one != other:
            return f"line {at}: expected '{one}', printed '{other}'"
    return f"expected {len(wanted) - 1} lines, printed {len(got) - 1}"


def check(folder, command, trace, why, changed):
    """The faults of one case, as text."""
    octets = read_hex((folder / "input.hex").read_text())
    expected = (folder / "stdout").read_text()
    faults = [difference(expected, run(command, octets))]
    if trace:
        found = difference(expected, without_trace(run(command + [trace], octets)))
        faults.append(found and f"with {trace}, {found}")
    if why and (folder / "why").exists():
        found = difference((folder / "why").read_text(), run(command + [why], octets))
        faults.append(found and f"with {why}, {found}")
    if changed:
        found = changes.check(*(run(command + [word], octets) for word in ("changes", trace, why)))
        faults.append(found and f"with changes, {found}")
    return [fault for fault in faults if fault]


def main():
    parser = argparse.ArgumentParser(description=__doc__.splitlines()[0])
    parser.add_argument("--bench", required=True)
    parser.add_argument("--trace-too", nargs="?", const="trace", metavar="WORD")
    parser.add_argument("--why", nargs="?", const="why", metavar="WORD")
    parser.add_argument("--changes", action="store_true", help="with --trace-too and --why")
    parser.add_argument("names", nargs="*", help="only these cases")
    given = parser.parse_args()
    if given.changes and not (given.trace_too and given.why):
        parser.error("--changes is held against --trace-too and --why: give both")
    command = shlex.split(given.bench)
    folders = sorted(path for path in CASES.iterdir() if path.is_dir()
                     and (not given.names or path.name in given.names))
    ways, failed = (given.trace_too, given.why, given.changes), 0
    with concurrent.futures.ThreadPoolExecutor(os.cpu_count()) as pool:
        results = pool.map(lambda folder: check(folder, command, *ways), folders)
        for folder, faults in zip(folders, results):
            failed += bool(faults)
            for fault in faults:
                print(f"{folder.name}: {fault}")
    print(f"{len(folders) - failed} cases passed, {failed} failed")
    sys.exit(1 if failed or not folders else 0)


if __name__ == "__main__":
    main()
