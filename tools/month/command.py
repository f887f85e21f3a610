"""The command line of month."""

import os
import pathlib
import shlex
import subprocess
import sys

from tools import ending
from tools.handed import handed
from tools.scenario.answers import BenchFault
from tools.scenario.source import UsageFault
from tools.scenario.stream import BENCH, ready
from tools.scenario.values import visible

from . import blocks, picture, sheet, words

USAGE = "month FILE.. [--svg OUT.svg] [--csv OUT.csv], or month --help"
HELP = """\
month: counts bench files with the bench program, exactly, and tells the numbers

  month FILE..                 in words: all files together, then a line for each
  month FILE.. --svg OUT.svg   pictures of it on one sheet as well: joins and leaves, refusals, discards, holds
  month FILE.. --csv OUT.csv   every number, a row for each file and one for all together

FILE is a bench input, as 'scenario --octets' and 'bench import' write it. Counted are events, refusals by number, discards
by reason, joins, leaves, timeouts by kind, and the holds that were set: how many, the longest, their sum, and their mean as
a reduced fraction. A number past 64 bits is 'over', in its own place alone. A file with a fault counts up to there, one
that can't be read counts as empty; either is named on standard error, and the status is 1.

--bench PROGRAM counts with another program than ./bench.
"""
VALUED = ("--svg", "--csv", "--bench")


def arguments(given):
    """The options with their values, and the files."""
    options, files, given = {}, [], list(given)
    while given:
        word = given.pop(0)
        if not word.startswith("--"):
            files.append(word)
            continue
        word, equals, value = word.partition("=")
        if word not in VALUED:
            raise UsageFault(f"unknown option '{visible(word)}': {USAGE}")
        if word in options:
            raise UsageFault(f"{word} is given twice: {USAGE}")
        if not equals and (not given or given[0].startswith("--")):
            raise UsageFault(f"{word} needs a value behind it: {USAGE}")
        options[word] = value if equals else given.pop(0)
    if not files:
        raise UsageFault(f"no file given: {USAGE}")
    outs = [options[word] for word in ("--svg", "--csv") if word in options]
    for at, out in enumerate(outs):
        check_out(out, files, outs[:at])
    return options, files


def check_out(out, files, others):
    """A fault where a file could not be written, or would be written over one that is counted."""
    if not out or os.path.isdir(out):
        raise UsageFault(f"'{visible(out)}' is no file to write to")
    if not os.path.isdir(os.path.dirname(out) or "."):
        raise UsageFault(f"{visible(out)}: there is no folder {visible(os.path.dirname(out))}")
    if any(os.path.abspath(out) == os.path.abspath(other) for other in others):
        raise UsageFault(f"{visible(out)} is given twice: --svg and --csv write two files")
    if any(os.path.exists(out) and os.path.exists(file) and os.path.samefile(out, file) for file in files):
        raise UsageFault(f"{visible(out)} is one of the files that are counted")


def counted(command, files):
    """The blocks of the files and of all together, and what the program said of files that are at fault."""
    try:
        with handed(files) as (names, ends):
            done = subprocess.run([*command, "month", *names], stdin=subprocess.DEVNULL, capture_output=True, pass_fds=ends)
    except OSError as fault:
        raise BenchFault(f"{command[0]} can't be run: {fault.strerror}") from None
    except ValueError:
        raise UsageFault("a name with an octet 0 is no file's") from None
    errors = done.stderr.decode("utf-8", "backslashreplace")
    for name, file in sorted(zip(names, files), key=lambda pair: -len(pair[0])):
        if name != file:
            errors = errors.replace(name, os.fsencode(file).decode("utf-8", "backslashreplace"))
    said = [line for line in visible(errors.replace("\n", "\r")).split("\\r") if line]
    if not done.stdout:
        raise BenchFault(f"the bench program did not count: {said[0] if said else f'it ended with status {done.returncode}'}")
    return (*blocks.read(done.stdout, names), said)


def put(text):
    """To standard output, as far as it is read."""
    if sys.stdout is None:
        raise UsageFault("standard output is closed")
    sys.stdout.buffer.write(text.encode("utf-8", "backslashreplace"))
    sys.stdout.buffer.flush()


def save(out, text):
    try:
        pathlib.Path(out).write_text(text, encoding="utf-8", errors="backslashreplace")
    except OSError as fault:
        raise UsageFault(f"{visible(out)}: {fault.strerror}") from None


def run(given):
    """0, or 1 where a file was not counted whole."""
    if given in (["--help"], ["-h"]):
        put(HELP)
        return 0
    options, files = arguments(given)
    command = shlex.split(options["--bench"]) if "--bench" in options else BENCH
    ready(command)
    found, all_, said = counted(command, files)
    for line in said:
        print(f"month: {line}", file=sys.stderr)
    if "--svg" in options:
        save(options["--svg"], picture.draw(files, found, all_).svg())
    if "--csv" in options:
        save(options["--csv"], sheet.text(files, found, all_))
    put("\n".join(words.lines(files, found, all_)) + "\n")
    return 1 if said else 0


def main(given):
    """Ends with 0, or with 1 and what is wrong on standard error."""
    return ending.status("month", lambda: run(given), (UsageFault, BenchFault))
