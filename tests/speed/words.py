"""Measures what a scenario in words takes beside its plain lines: python3 -m tests.speed.words [STREAM..] [--events N] [--runs N].

For each stream the seconds that one waits for `./scenario FILE` and for `./scenario --lines FILE`, and the processor's seconds of tool
and program, the least of some runs in turn; the ratio of both; and the memory of the tool when it tells in words. The goal is
to wait at most three times as long at 100,000 events; what else the machine does counts into it. On a processor that is not x86-64 the
program runs under an emulator, and its share says nothing of another machine: --bench takes another program in its place.
"""

import argparse
import itertools
import pathlib
import random
import subprocess
import sys
import tempfile
import time

from tests.scenarios.examples import many_lines

ROOT = pathlib.Path(__file__).resolve().parents[2]
AP, STATION = "ap own=02:00:00:00:00:01", "station own=02:00:00:00:00:01"
PROTECTED = f"{AP} edition=2 protection=1\n"
# The processor's seconds for tool and program, and the tool's memory, come last on standard error.
PLAY = """import resource, sys
from tools.scenario import command
status = command.main(sys.argv[1:])
own, program = (resource.getrusage(who) for who in (resource.RUSAGE_SELF, resource.RUSAGE_CHILDREN))
print(sum(who.ru_utime + who.ru_stime for who in (own, program)), own.ru_maxrss / 1024, file=sys.stderr)
sys.exit(status)"""


def joins(peer, sender=None):
    """The five lines by which a peer joins an access point."""
    sender = sender or peer
    return [f"frame auth-request from={sender}", f"prim respond-authenticate {peer}", f"frame assoc-request from={sender}",
            f"prim respond-associate {peer}", f"prim report {peer}"]


def office(draw, peers=8):
    """An access point: data mostly, beacons between; some join anew, or leave and come back, and time passes."""
    yield f"{AP}\nname s-1..{peers} = 02:00:00:00:01:01"
    yield from itertools.chain.from_iterable(joins(f"s-{peer}") for peer in range(1, peers + 1))
    kinds = ["frame data from={}"] * 5 + ["frame qos-data from={}"] * 4 + ["frame null from={}", "frame beacon from={}"]
    while True:
        peer = f"s-{draw.randrange(1, peers + 1)}"
        what = draw.randrange(100)
        if what < 93:
            yield draw.choice(kinds).format(peer)
        elif what < 95:
            yield from joins(peer)
        elif what < 97:
            yield from (f"frame deauth from={peer} reason={draw.randrange(1, 9)}", *joins(peer))
        else:
            yield f"clock {draw.randrange(1, 200)}"


def crowd(draw):
    """The same with all 32 places taken."""
    return office(draw, 32)


def rejected(dock, draw):
    """The four lines by which a station asks an access point to let it in, and is told to come back later."""
    return (f"prim authenticate {dock}", f"frame auth-response from={dock}", f"prim associate {dock}",
            f"frame assoc-response from={dock} status=30 comeback={draw.randrange(1, 40) * 50}")


def mixed(draw):
    """A station with an access point: data and beacons; now and then it asks another one, is put off, and clock steps count that down."""
    yield f"{STATION}\nname d-1..6 = 02:00:00:00:02:01"
    yield from ("prim authenticate d-1", "frame auth-response from=d-1", "prim associate d-1", "frame assoc-response from=d-1")
    kinds = ["frame data from=d-1"] * 4 + ["frame qos-data from=d-1"] * 3 + ["frame beacon from=d-{}"] * 2 + ["clock {}"]
    while True:
        for _ in range(draw.randrange(20, 60)):
            yield draw.choice(kinds).format(draw.randrange(1, 7))
        dock = f"d-{draw.randrange(2, 7)}"
        yield from (*(line.replace("prim associate", "prim reassociate") for line in rejected(dock, draw)), f"frame deauth from={dock}")


def holds(draw):
    """A station that every one of six access points puts off: what a clock step tells, and much beside, is of other times each time."""
    yield f"{STATION}\nname d-1..6 = 02:00:00:00:02:01"
    while True:
        dock = f"d-{draw.randrange(1, 7)}"
        yield from rejected(dock, draw)
        for _ in range(draw.randrange(1, 12)):
            yield draw.choice((f"clock {draw.randrange(1, 30)}", f"prim associate {dock}", f"frame beacon from={dock}",
                               f"frame data from={dock} from-ds=1"))
        yield f"frame deauth from={dock}"


def ranges(draw):
    """The office again, by lines that are an event for each of eight peers."""
    yield f"{AP}\nname s-1..8 = 02:00:00:00:01:01"
    yield from joins("s-1..8")
    while True:
        what = draw.randrange(20)
        yield from joins("s-1..8") if not what else [draw.choice(("frame data from=s-1..8", "frame qos-data from=s-1..8"))]


def links(draw):
    """Eight tablets with three radios each: data over every radio; some leave, and come back by another."""
    names = [f"02:00:00:01:{tablet:02x}" for tablet in range(1, 9)]
    yield AP + "".join(f"\nname t-{at} = {name}:00\nname r-{at}-1..3 = {name}:01" for at, name in enumerate(names, 1))
    for at in range(1, 9):
        yield from (f"links t-{at} r-{at}-1..3", *joins(f"t-{at}", f"r-{at}-1"))
    while True:
        at = draw.randrange(1, 9)
        radio = f"r-{at}-{draw.randrange(1, 4)}"
        if draw.randrange(100) < 96:
            yield draw.choice(("frame data from={}", "frame qos-data from={}", "clock 5")).format(radio)
        else:
            yield from (f"frame deauth from={radio}", f"links t-{at} r-{at}-1..{draw.randrange(2, 4)}", *joins(f"t-{at}", f"r-{at}-1"))


def chance(draw):
    """Every kind of line in no order, of forty peers."""
    yield f"{PROTECTED}name s-1..40 = 02:00:00:00:01:01"
    yield from (line[:-1] for line in many_lines(draw.randrange(1000), 1 << 30))


def strangers(draw):
    """No two lines alike: each peer has another address, and comes once, so nothing told serves again."""
    yield AP
    for at in itertools.count(1):
        peer = at.to_bytes(4, "big").hex(":")
        yield draw.choice(("frame auth-request from=02:00:{}", "frame data from=02:01:{}", "frame raw b0 00*9 02:02:{}")).format(peer)
        if not at % 16:
            yield f"clock {at % 60000 + 1}"


STREAMS = {stream.__name__: stream for stream in (office, mixed, crowd, links, ranges, chance, holds, strangers)}
# How many events a line is, where it is not one.
EVENTS = {"ranges": 8}


def measured(words):
    """The seconds waited, the processor's seconds, and MiB of the tool's memory."""
    started = time.perf_counter()
    done = subprocess.run([sys.executable, "-c", PLAY, *words], stdout=subprocess.DEVNULL, stderr=subprocess.PIPE, text=True, cwd=ROOT)
    if done.returncode:
        sys.exit(f"words: a scenario was not played:\n{done.stderr}")
    return time.perf_counter() - started, *map(float, done.stderr.split("\n")[-2].split())


def both(words, lines, runs):
    """The least of each over some runs of both, in turn, as a machine may be slower for a while."""
    found = [(measured(words), measured(lines)) for _ in range(runs)]
    return [[min(values) for values in zip(*one)] for one in zip(*found)]


def main():
    parser = argparse.ArgumentParser(description=__doc__.splitlines()[0])
    parser.add_argument("streams", nargs="*", metavar="STREAM", help=", ".join(STREAMS))
    parser.add_argument("--events", type=int, default=100_000)
    parser.add_argument("--runs", type=int, default=5)
    parser.add_argument("--bench", help="another program than ./bench")
    given = parser.parse_args()
    unknown = set(given.streams) - set(STREAMS)
    if unknown:
        parser.error(f"no stream is {min(unknown)}: {', '.join(STREAMS)}")
    program = ["--bench", given.bench] if given.bench else []
    print(f"{'stream':<12}{'words s':>9}{'lines s':>9}{'ratio':>7}{'processor':>11}{'':>7}{'ratio':>7}{'MiB':>7}")
    with tempfile.TemporaryDirectory() as folder:
        for name in given.streams or STREAMS:
            file = pathlib.Path(folder) / f"{name}.scenario"
            lines = itertools.islice(STREAMS[name](random.Random(1)), given.events // EVENTS.get(name, 1) + 1)
            # Not as one text: a child's memory is counted from that of its parent on.
            with file.open("w") as text:
                text.writelines(line + "\n" for line in lines)
            (told, spent, memory), (plain, spent_plain, _) = both([*program, str(file)], [*program, "--lines", str(file)], given.runs)
            waited = f"{told:>9.2f}{plain:>9.2f}{told / plain:>7.2f}"
            print(f"{name:<12}{waited}{spent:>11.2f}{spent_plain:>7.2f}{spent / spent_plain:>7.2f}{memory:>7.1f}", flush=True)


if __name__ == "__main__":
    main()
