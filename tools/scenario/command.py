"""The command line of scenario."""

import gc
import shlex
import sys

from tools import ending

from . import from_capture, manual, rival, source, stream
from .answers import BenchFault
from .laid import laid
from .show import Teller
from .source import ScenarioFault, UsageFault
from .values import Fault, visible

USAGE = "scenario [--table | --lines | --octets | --check | --chart OUT.svg | --rival LOG] FILE, or scenario --help [WORD]"
OPTIONS = ("--table", "--lines", "--octets", "--check", "--chart", "--rival", "--from")
# Nothing here refers to itself, so what is no longer needed goes at once; Python need not look for it but after so many objects.
SELDOM = 100_000
# Options with a value behind them.
VALUED = ("--chart", "--rival", "--bench", "--from", "--settings")


def arguments(words):
    """The options with their values, '' for none, and the files."""
    options, files, words = {}, [], list(words)
    while words:
        word = words.pop(0)
        if not word.startswith("--"):
            files.append(word)
            continue
        word, equals, value = word.partition("=")
        if word not in OPTIONS + VALUED or equals and word not in VALUED:
            raise UsageFault(f"unknown option '{word}': {USAGE}")
        if word in VALUED and not equals:
            if not words:
                raise UsageFault(f"{word} needs a value behind it: {USAGE}")
            value = words.pop(0)
        clash = [other for other in options if other in OPTIONS and word in OPTIONS]
        if clash:
            raise UsageFault(f"{clash[0]} and {word} do not go together: {USAGE}")
        options[word] = value
    if "--from" in options and not files and "--settings" in options:
        return options, [options["--from"]]
    if "--from" in options or "--settings" in options:
        raise UsageFault("a capture is turned into a scenario by: scenario --from CAPTURE --settings 'ap own=ADDRESS'")
    if len(files) != 1 and not (files and "--check" in options):
        raise UsageFault(f"{len(files) or 'no'} files given, one is wanted: {USAGE}")
    return options, files


def put(octets, flush=True):
    """To standard output, as far as it is read."""
    if sys.stdout is None:
        raise UsageFault("standard output is closed")
    sys.stdout.buffer.write(octets)
    if flush:
        sys.stdout.buffer.flush()


def octets(lines, name):
    """The bench input, whole or not at all."""
    with laid(lines, name, "--octets") as (made, _):
        for piece in iter(lambda: made.read(stream.PIECE), b""):
            put(piece)


def changes(command):
    return command + ["changes"]


def tell(lines, name, command, with_table):
    """The transcript; the number of expectations that were not met."""
    teller = Teller(with_table)
    for some, turns in stream.played(lines, changes(command)):
        if some:
            put("".join(teller.lines(some, turns)).encode())
    put(teller.ending().encode())
    for line, came in teller.failed:
        print(unmet(name, line, came), file=sys.stderr)
    return len(teller.failed)


def unmet(name, line, came):
    return f"{name}:{line.at}: {' '.join(line.text.split('#', 1)[0].split())}: not met: {came}"


def check(lines, name, command):
    """Prints only what was not as expected; the number of such lines."""
    teller = Teller()
    for line, turns in stream.one_by_one(lines, changes(command)):
        teller.begin(line)
        came = teller.judge(line, turns)
        if came:
            put((unmet(name, line, came) + "\n").encode())
    if not teller.expected:
        raise UsageFault(f"{name}: no line says what to expect, so there is nothing to check: scenario --help expect")
    return len(teller.failed)


def turn(file, settings):
    """The text of a scenario that a capture makes; 1 where the capture ends in the middle of a packet."""
    capture = None
    try:
        with open(file, "rb") as octets_:
            for line, capture in from_capture.texts(octets_, file, settings):
                put((visible(line) + "\n").encode(), False)
    except Fault as fault:
        raise UsageFault(f"--settings: {fault}") from None
    except OSError as fault:
        if isinstance(fault, BrokenPipeError):
            raise
        raise UsageFault(f"{file}: {fault.strerror}") from None
    put(b"")
    said = f"{capture.packets} packets, {capture.left_out} left out" + (f"; {capture.fault}" if capture.fault else "")
    print(f"scenario: {file}: {said}", file=sys.stderr)
    return 1 if capture.fault else 0


def produce(options, file, command):
    """Plays one file as the options say; the number of expectations that were not met."""
    if "--from" in options:
        return turn(file, options["--settings"])
    if "--rival" in options:
        stream.ready(command)
        told, right = rival.compare(file, options["--rival"], rival.Programs(command + ["check"], changes(command)))
        put(("\n".join(told) + "\n").encode())
        return 0 if right else 1
    text, name = source.opened(file)
    with text:
        lines = source.lines(text, name)
        if "--octets" in options:
            octets(lines, name)
            return 0
        stream.ready(command)
        if "--lines" in options:
            for piece in stream.plain(lines, command):
                put(piece.encode())
            return 0
        if "--check" in options:
            return check(lines, name, command)
        if "--chart" in options:
            from tools.pictures import played  # the pictures are needed here alone
            return played.write(stream.one_by_one(lines, changes(command)), name, options["--chart"])
        return tell(lines, name, command, "--table" in options)


def play(words):
    """0 where all is as expected, else 1; a fault with its line."""
    if any(word in ("--help", "-h") for word in words):
        put(manual.text([word for word in words if word not in ("--help", "-h")]).encode())
        return 0
    options, files = arguments(words)
    command = shlex.split(options["--bench"]) if "--bench" in options else stream.BENCH
    return 1 if sum([produce(options, file, command) for file in files]) else 0


def told(words):
    """The same, with the faults of a scenario's text told."""
    try:
        return play(words)
    except ScenarioFault as fault:
        print(fault, file=sys.stderr)
    return 1


def main(words):
    """Ends with 0, or with 1 and what is wrong on standard error."""
    gc.set_threshold(SELDOM)
    return ending.status("scenario", lambda: told(words), (UsageFault, BenchFault))
