"""The month in exact numbers: two programs over the generator's files, in any order, in four processes, and past
64 bits, all held against the numbers as Python works them out (block.py).

python3 -m tests.comparison.months --left CMD --right CMD [--seed S] [--count N] [--totals N]

The right command prints the changes that are counted from.
"""

import argparse
import concurrent.futures
import os
import pathlib
import shlex
import subprocess
import tempfile

from tests import ending

from . import block, generate
from .walk import Dice

SECONDS = 300
PROCESSES = 4
# Numbers about the end of 64 bits, and usual ones.
HIGH = (block.MOST, block.MOST - 1, 1 << 63, (1 << 63) - 1, block.MOST // 3)


def run(command, octets=b""):
    """Standard output, and the lines of standard error."""
    done = subprocess.run(command, input=octets, capture_output=True, timeout=SECONDS)
    return done.stdout.decode("utf-8"), done.stderr.decode("utf-8").splitlines()


def counted(path, right):
    """The block of one file, and whether it stops. Runs in a worker."""
    octets = path.read_bytes()
    printed, _ = run(right + ["changes"], octets)
    return block.count(octets, printed), printed.endswith("stop\n")


def blocks_of(printed):
    """The blocks that a month prints, by heading."""
    found, heading = {}, None
    for line in printed.splitlines(keepends=True):
        if line.startswith("file ") or line == "all\n":
            heading = line
            found[heading] = ""
        else:
            found[heading] += line
    return found


def difference(printed, wanted):
    """The first line that is not as wanted, or None."""
    if printed == wanted:
        return None
    lines = printed.splitlines() + ["(ended)"], wanted.splitlines() + ["(ended)"]
    at = next(at for at, (one, other) in enumerate(zip(*lines)) if one != other)
    return f"line {at + 1} is '{lines[0][at]}' instead of '{lines[1][at]}'"


def check_month(command, names, blocks, stopped):
    """One program on all files: each block, that of all, and a line on standard error for each that stops."""
    wanted = "".join(f"file {name}\n{block.shown(one)}" for name, one in zip(names, blocks))
    printed, errors = run(command + ["month", *names])
    faults = [difference(printed, wanted + "all\n" + block.shown(block.joined(blocks)))]
    unnamed = [name for name in stopped if sum(name in line for line in errors) != 1]
    if unnamed or len(errors) != len(stopped):
        faults.append(f"{len(errors)} lines on standard error for {len(stopped)} files; not named: {unnamed[:3]}")
    return faults


def check_parts(command, names, whole, dice):
    """Files in another order, and in four processes at once whose blocks are then added up."""
    order = sorted(names, key=lambda _: dice.below(1 << 30))
    parts = [order[at::PROCESSES] for at in range(PROCESSES)]
    with concurrent.futures.ThreadPoolExecutor(PROCESSES) as pool:
        printed = [out for out, _ in pool.map(run, [command + ["month", *part] for part in parts])]
    alls = "".join("all\n" + blocks_of(out)["all\n"] for out in printed)
    each = "".join(heading + text for out in printed for heading, text in blocks_of(out).items()
                   if heading != "all\n")
    faults = [difference(blocks_of(run(command + ["month", *order])[0])["all\n"], whole)]
    return faults + [difference(run(command + ["total"], text.encode())[0], whole) for text in (alls, each)]


def drawn_block(dice):
    """Any numbers of 64 bits, some of them `over`."""
    def number():
        return dice.weighted(((55, dice.below(1000)), (20, dice.of(HIGH)), (20, dice.below(1 << 62)), (5, block.OVER)))
    return {word: [number() for _ in range(count)] for word, count in block.LINES.items()}


def check_totals(command, dice, draws):
    """Blocks added up, about and past the end of 64 bits, with headings and without."""
    faults = [difference(run(command + ["total"])[0], block.shown(block.empty()))]
    for _ in range(draws):
        blocks = [drawn_block(dice) for _ in range(dice.below(4))]
        heading = dice.of(("", "all\n", "file a name with blanks\n", "file events 3\n"))
        text = "".join(heading + block.shown(one) for one in blocks)
        fault = difference(run(command + ["total"], text.encode())[0], block.shown(block.joined(blocks)))
        faults.append(fault and f"total of\n{text}{fault}")
    return faults


def check_refused(command):
    """Lines that are of no block: one line on standard error, and nothing printed."""
    faults = []
    for line in ("", "what 3", "events", "events x", "events 1 2", "events 18446744073709551616", "events -1", "refusals 1 2 3",
                 "refusals 1 2 3 4 5 6 7 8 9 10", "events  1", "eventss 1", "event 1", "Events 1"):
        printed, errors = run(command + ["total"], f"{line}\n{block.shown(block.empty())}".encode())
        if printed or len(errors) != 1:
            faults.append(f"'{line}' is taken: {len(errors)} lines on standard error")
    return faults


def check_all(commands, names, blocks, stopped, given):
    """The faults of each program."""
    faults, whole = [], block.shown(block.joined(blocks))
    for command in commands:
        dice = Dice(given.seed)
        found = check_month(command, names, blocks, stopped) + check_parts(command, names, whole, dice)
        found += check_totals(command, dice, given.totals) + check_refused(command)
        faults += [f"{command[0]}: {fault}" for fault in found if fault]
    return faults


def main():
    parser = argparse.ArgumentParser(description=__doc__.splitlines()[0])
    parser.add_argument("--left", required=True)
    parser.add_argument("--right", required=True)
    parser.add_argument("--seed", type=int, default=1)
    parser.add_argument("--count", type=int, default=30_000)
    parser.add_argument("--totals", type=int, default=200)
    given = parser.parse_args()
    left, right = shlex.split(given.left), shlex.split(given.right)
    with tempfile.TemporaryDirectory() as folder:
        paths = [pathlib.Path(folder) / f"{job.name}.in" for job in generate.plan(given.seed, given.count)]
        for path, job in zip(paths, generate.plan(given.seed, given.count)):
            path.write_bytes(generate.make(job))
        with concurrent.futures.ProcessPoolExecutor(os.cpu_count()) as pool:
            found = list(pool.map(counted, paths, [right] * len(paths), chunksize=4))
        unread = [os.path.join(folder, name) for name in ("not there", "a folder")]
        os.mkdir(unread[1])
        names = [str(path) for path in paths] + unread
        blocks = [one for one, _ in found] + [block.empty()] * 2
        stopped = [str(path) for path, (_, stops) in zip(paths, found) if stops] + unread
        faults = check_all((left, right), names, blocks, stopped, given)
    print(block.shown(block.joined(blocks)), end="")
    ending.tell(f"{len(names)} files, {len(stopped)} of them stop or can't be read", faults)


if __name__ == "__main__":
    main()
