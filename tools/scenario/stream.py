"""Plays lines on the bench program as they come: octets go in and answers come out, neither waiting for the other."""

import bisect
import itertools
import operator
import os
import pathlib
import platform
import select
import shutil
import subprocess
import tempfile

from .blocks import Changes
from .rows import BenchFault

BENCH = [str(pathlib.Path(__file__).resolve().parents[2] / "bench")]
PIECE = 1 << 15
SECONDS = 120
# So many lines are handed on at once; then it is looked what has come.
OFTEN = 512
EVENTS, RECORD = operator.attrgetter("events"), operator.attrgetter("record")
RT = "the Rattle kit's 'rt' is not on the PATH: install the kit, or add its bin folder to PATH"


def ready(command):
    """A fault where our own program can't be run for want of the kit: not built, or built for another processor."""
    if command != BENCH or shutil.which("rt"):
        return
    if not pathlib.Path(BENCH[0]).parent.joinpath("crates/bench/out/bench").exists():
        raise BenchFault(f"the bench program is not built yet, and {RT}; then './run' builds it")
    if platform.machine() != "x86_64":
        raise BenchFault(f"{RT}: the bench program is x86-64's and runs under qemu-user, with the kit's C library, on this processor")


class Child:
    """One run of the program."""

    def __init__(self, command):
        self.command, self.pending, self.over = command, bytearray(), False
        self._errors = tempfile.TemporaryFile()
        try:
            self._process = subprocess.Popen(command, stdin=subprocess.PIPE, stdout=subprocess.PIPE,
                                             stderr=self._errors, bufsize=0)
        except OSError as fault:
            self._errors.close()
            raise BenchFault(f"{command[0]} can't be run: {fault.strerror}") from None
        self.input, self.output = self._process.stdin, self._process.stdout
        os.set_blocking(self.input.fileno(), False)

    def turn(self, wait, last=False):
        """Writes and reads what can be, at once or after a wait; the text that came."""
        if last and not self.pending and not self.input.closed:
            self.input.close()
        writes = [self.input] if self.pending else []
        reads, writes, _ = select.select([self.output], writes, [], SECONDS if wait else 0)
        if wait and not reads and not writes:
            raise BenchFault(f"{self.command[0]} had not answered after {SECONDS} s")
        if writes:
            self._write()
        if not reads:
            return ""
        text = os.read(self.output.fileno(), PIECE)
        self.over = not text
        if self.over:
            self._ended(last)
        return text.decode("ascii", "replace")

    def _write(self):
        try:
            del self.pending[:self.input.write(self.pending[:PIECE]) or 0]
        except BrokenPipeError:
            self.pending.clear()

    def _ended(self, last):
        status = self._process.wait()
        self._errors.seek(0)
        said = self._errors.read(500).decode("utf-8", "replace").strip()
        if status or not last and not self.input.closed:
            raise BenchFault(f"the bench program did not run: {said or f'it ended with status {status}'}")

    def end(self):
        """Ends the program if it runs still."""
        if self._process.poll() is None:
            self._process.kill()
            self._process.wait()
        for file in (self.input, self.output, self._errors):
            try:
                file.close()
            except OSError:
                pass


class Run:
    """One bench input with its answers: settings, then lines one after the other."""

    def __init__(self, command, settings):
        self._child, self._changes = Child(command), Changes()
        self._child.pending += settings.record
        # The lines that are not yet told, with which event each ends, and the events that are not yet answered.
        self._lines, self._ends, self._events = [], [], []
        # How many events were given to the child, and how many were handed on.
        self._fed, self._told = 0, 0
        # The turns that are not yet told.
        self._turns = []

    def add(self, lines):
        """Takes some lines; waits where the program is behind."""
        of_each = list(map(EVENTS, lines))
        events = list(itertools.chain.from_iterable(of_each))
        self._lines += lines
        self._ends += itertools.islice(itertools.accumulate(map(len, of_each), initial=self._fed), 1, None)
        self._events += events
        self._fed += len(events)
        self._child.pending += b"".join(map(RECORD, events))
        while len(self._child.pending) >= PIECE:
            self._turn(True)

    def look(self):
        """The lines that are answered by now, and their turns."""
        self._turn(False)
        return self._answered()

    def finish(self):
        """The lines that are left, after the last one."""
        while not self._child.over:
            self._turn(True, True)
            yield self._answered()
        self._take("", True)
        yield self._answered()
        if self._changes.number != self._fed:
            raise self._miscounted()

    def _turn(self, wait, last=False):
        text = self._child.turn(wait, last)
        if text:
            self._take(text)

    def _take(self, text, last=False):
        """Takes what the program printed. Answers to nothing are read too, as they may say what is wrong, and no more is told then."""
        turns = self._changes.take(text, itertools.chain(self._events, itertools.repeat(None)), last)
        if self._changes.number > self._fed:
            raise self._miscounted()
        self._turns += turns
        del self._events[:len(turns)]

    def _miscounted(self):
        return BenchFault(f"the bench program gave {self._changes.number} answers to {self._fed} events")

    def _answered(self):
        """The lines that are whole by now, with their turns."""
        turns = self._turns
        whole = bisect.bisect_right(self._ends, self._told + len(turns))
        end = self._ends[whole - 1] - self._told if whole else 0
        done = self._lines[:whole], turns[:end]
        del self._lines[:whole], self._ends[:whole], turns[:end]
        self._told += end
        return done

    def end(self):
        self._child.end()


def played(lines, command):
    """Some lines, and the turns that their events were, over and over. A turn is the event, its number and outcome, the rows
    before and after it, and the pairs of these that differ. The command is the program with its word for changes."""
    run, some = None, []
    try:
        for line in lines:
            if line.settings:
                if run:
                    run.add(some)
                    yield from run.finish()
                    run.end()
                run, some = Run(command, line.settings), []
            if run is None:
                yield [line], []
                continue
            some.append(line)
            if len(some) == OFTEN:
                run.add(some)
                yield run.look()
                some = []
        if run:
            run.add(some)
            yield from run.finish()
    finally:
        if run:
            run.end()


def one_by_one(lines, command):
    """The same line by line, each with its own turns."""
    for some, turns in played(lines, command):
        turns = iter(turns)
        for line in some:
            yield line, list(itertools.islice(turns, len(line.events)))


def plain(lines, command):
    """The program's plain lines, piece by piece."""
    child = None
    try:
        for line in lines:
            if line.settings:
                if child:
                    yield from _rest(child)
                child = Child(command)
                child.pending += line.settings.record
            for event in line.events:
                child.pending += event.record
            while child and len(child.pending) >= PIECE:
                yield child.turn(True)
        if child:
            yield from _rest(child)
    finally:
        if child:
            child.end()


def _rest(child):
    while not child.over:
        yield child.turn(True, True)
    child.end()
