"""Runs the stored cases with their input in pieces: python3 -m tests.pieces --bench CMD [--seed S].

Standard input is a socket that keeps packets apart, so each read of the program gets one piece
and no more, whatever the machine does. Each case comes in pieces of one octet, of two, and cut at
random; the output must be that of the whole input. The stored logs of tests/checks come in pieces
too, beside their input, through pipes that keep packets apart; the same must be said. Then an input
of 8 megabytes, one record over and over, for a program that gets 6 megabytes of memory in all: the
lines must be as many; and those lines as a log, of 20 megabytes, must be right.
"""

import argparse
import os
import platform
import random
import resource
import shlex
import socket
import subprocess
import sys
import threading

from . import files
from .cases import CASES, read_hex
from .comparison import logs

SECONDS = 120
LONG = 1200000
MEMORY = 6000000


def cut(octets, sizes):
    """The octets in pieces, the sizes taken from an iterator."""
    pieces, at = [], 0
    while at < len(octets):
        size = next(sizes)
        pieces.append(octets[at:at + size])
        at += size
    return pieces


def run(command, pieces):
    """What the program prints where each read gets one piece."""
    ours, theirs = socket.socketpair(socket.AF_UNIX, socket.SOCK_SEQPACKET)
    with ours, subprocess.Popen(command, stdin=theirs, stdout=subprocess.PIPE) as program:
        theirs.close()

        def feed():
            try:
                for piece in pieces:
                    ours.send(piece)
            except BrokenPipeError:
                pass  # the program met a fault, and reads no further
            ours.shutdown(socket.SHUT_WR)

        feeder = threading.Thread(target=feed)
        feeder.start()
        printed = program.stdout.read()
        feeder.join(SECONDS)
        program.wait(SECONDS)
    return printed


def ways(octets, dice):
    """The ways to cut an input."""
    yield "of 1 octet", cut(octets, iter(lambda: 1, None))
    yield "of 2 octets", cut(octets, iter(lambda: 2, None))
    for _ in range(3):
        yield "cut at random", cut(octets, iter(lambda: dice.randint(1, 40), None))


def in_pieces(command, dice):
    """How many inputs were run, and the faults."""
    count, faults = 0, []
    for folder in sorted(path for path in CASES.iterdir() if path.is_dir()):
        octets = read_hex((folder / "input.hex").read_text())
        if len(octets) > 20000:
            continue
        expected = (folder / "stdout").read_bytes()
        for name, pieces in ways(octets, dice):
            count += 1
            if run(command, pieces) != expected:
                faults.append(f"{folder.name}: in pieces {name} it prints something else")
    return count, faults


def piped(pieces):
    """A pipe from which each read gets one piece, and its feeder."""
    there, here = os.pipe2(os.O_DIRECT)

    def feed():
        try:
            for piece in pieces:
                os.write(here, piece)
        except BrokenPipeError:
            pass  # it was settled before all was read
        os.close(here)

    return there, threading.Thread(target=feed)


def checked(command, octets, log):
    """What is said of a log where each read of either file gets one piece."""
    pipes = [piped(octets), piped(log)]
    ends = [there for there, _ in pipes]
    with subprocess.Popen(command + ["check", *(f"/dev/fd/{end}" for end in ends)], stdout=subprocess.PIPE,
                          pass_fds=ends) as program:
        for there, feeder in pipes:
            os.close(there)
            feeder.start()
        printed = program.stdout.read()
        program.wait(SECONDS)
    for _, feeder in pipes:
        feeder.join(SECONDS)
    return printed.decode("utf-8", "replace")


def logs_in_pieces(command, dice):
    """How many logs were checked, and the faults."""
    count, faults = 0, []
    for name, octets, _, log, line in logs.stored():
        for (way, pieces), (_, others) in zip(ways(octets, dice), ways(log, dice)):
            count += 1
            if checked(command, pieces, others) != line:
                faults.append(f"{name}: of both in pieces {way} something else is said")
    return count, faults


def limited():
    """In the program's process, before it starts: no more memory than MEMORY, unless an emulator has to have some too."""
    if platform.machine() == "x86_64":
        resource.setrlimit(resource.RLIMIT_AS, (MEMORY, MEMORY))


def long_input(command):
    """The faults of an input of LONG events, longer than all the memory that the program gets."""
    octets = read_hex((CASES / "nine_steps" / "input.hex").read_text())
    head = 5 + int.from_bytes(octets[3:5], "little")
    clock = bytes([0x0B, 3, 3, 2, 0, 1, 0])
    octets = octets[:head] + clock * LONG
    done = subprocess.run(command, input=octets, capture_output=True, timeout=SECONDS, preexec_fn=limited)
    lines = done.stdout.count(b"\n")
    if lines != LONG:
        return [f"{LONG} events: {lines} lines"]
    said = files.run(command, "check", octets, done.stdout, preexec_fn=limited).stdout
    return [] if said == b"right\n" else [f"the lines of {LONG} events as a log: {said!r}"]


def main():
    parser = argparse.ArgumentParser(description=__doc__.splitlines()[0])
    parser.add_argument("--bench", required=True)
    parser.add_argument("--seed", type=int, default=1)
    given = parser.parse_args()
    command = shlex.split(given.bench)
    count, faults = in_pieces(command, random.Random(given.seed))
    checks, more = logs_in_pieces(command, random.Random(given.seed))
    faults += more + long_input(command)
    for fault in faults:
        print(fault)
    print(f"{count} inputs and {checks} logs in pieces, and one of each of {LONG} events, {len(faults)} faults")
    return bool(faults)


if __name__ == "__main__":
    sys.exit(main())
