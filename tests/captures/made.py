"""Captures made for the test, each with a name: times, lengths, orders, headers at fault, cuts at every
octet, and draws of all of these."""

from tools import bench_input as bench
from tests.comparison.walk import Dice

from .layout import FILE_HEADER, NUMBER, PACKET_HEADER, capture, file_header, packet

OWN, PEER = (bench.address(text) for text in ("02:00:00:00:00:0a", "02:00:00:00:01:00"))
FRAMES = (bench.authentication(OWN, PEER), bench.association_request(OWN, PEER),
          bench.data(OWN, PEER, b"list"), bench.control(bench.ACK, OWN))
AUTH = FRAMES[0]
LAST = 4294967295
LENGTHS = (0, 1, 9, 10, 4095, 4096, 4097, 5000, 8192, 65536)


def times():
    """Lists of packets by the time of each."""
    return {
        "no time between": [(5, 0), (5, 0), (5, 1023)],
        "a TU to the microsecond": [(0, 0), (0, 1023), (0, 1024), (0, 2047), (0, 2048)],
        "1,000 and 48": [(7, 0), (7, 1000), (7, 1048), (7, 2048)],
        "back and forth": [(9, 0), (8, 999_999), (9, 1023), (0, 0), (9, 1024), (9, 1024)],
        "back before the first": [(9, 0), (3, 0), (8, 0), (9, 2048)],
        "65,535 TU": [(0, 0), (67, 107_839), (67, 107_840), (134, 215_680)],
        "65,536 TU": [(0, 0), (67, 108_864)],
        "131,070 and 131,071 TU": [(0, 0), (134, 215_680), (268, 432_384)],
        "half a day": [(1_700_000_000, 500_000), (1_700_043_200, 499_999)],
        "microseconds of a million and more": [(1, 999_999), (1, 1_000_000), (1, 1_001_024), (2, 2_048),
                                               (1, LAST)],
        "the last second": [(LAST, 0), (LAST, 1024), (LAST, LAST)],
        "from nothing to microseconds of all ones": [(0, 0), (0, LAST)],
        "two million seconds": [(0, 0), (2_000_000, 0)],
        "the first at the last second": [(LAST, LAST), (0, 0), (LAST, LAST)],
    }


def left_out():
    """Packets that are left out count for time, at the start, between and at the end."""
    whole = dict(octets=AUTH)
    cut = dict(octets=AUTH[:10], original=30)
    long = dict(octets=bytes(4097))

    def at(time, one):
        return dict(seconds=time, microseconds=0, **one)
    return {
        "first left out": [at(1, cut), at(2, whole), at(3, whole)],
        "left out between": [at(1, whole), at(2, long), at(3, cut), at(4, whole)],
        "last left out": [at(1, whole), at(9, cut)],
        "latest left out": [at(1, whole), at(9, cut), at(5, whole), at(10, whole)],
        "all left out": [at(1, cut), at(2, long)],
        "captured over the original": [at(1, dict(octets=AUTH, original=29)),
                                       at(2, dict(octets=AUTH, original=0))],
        "nothing captured of nothing": [at(1, dict(octets=b"")), at(2, whole)],
        "nothing captured of something": [at(1, whole), at(2, dict(octets=b"", original=1))],
        "long and said to be longer": [at(1, dict(octets=bytes(4096), original=4097)), at(2, whole)],
        **{f"{length} octets": [at(1, dict(octets=bytes(length))), at(2, whole)] for length in LENGTHS},
    }


def whole():
    """All that is not at fault, in both orders."""
    lists = {name: [(seconds, micros, FRAMES[at % 4]) for at, (seconds, micros) in enumerate(given)]
             for name, given in times().items()} | left_out() | {"no packet": []}
    return {f"{name}, {order}": capture(packets, order) for name, packets in lists.items()
            for order in ("little", "big")}


def at_fault():
    """Headers at fault: the number, the link type, each with the rest cut too."""
    faults = {}
    for order in ("little", "big"):
        good = [(0, 0, AUTH)]
        for magic in (0, NUMBER ^ 1, NUMBER ^ 1 << 31, 0xa1b23c4d, 0x0a0d0d0a, 0xa1b2cd34):
            faults[f"number {magic:08x}, {order}"] = capture(good, order, magic=magic)
        for link in (0, 1, 104, 106, 127, 105 << 8, 105 << 16, 105 << 24, 105 | 1 << 31, 105 | 1 << 16):
            faults[f"link type {link}, {order}"] = capture(good, order, link=link)
        faults[f"both, {order}"] = capture(good, order, magic=0, link=0)
    mixed = file_header("little")[:4] + file_header("big")[4:] + packet(0, 0, AUTH)
    return faults | {"orders mixed": mixed}


def cuts():
    """Every cut of a file of three packets, the second of them left out."""
    for order in ("little", "big"):
        packets = [(1, 0, AUTH[:12]), dict(seconds=2, microseconds=0, octets=b"\0\1", original=3),
                   (9, 5, FRAMES[3])]
        octets = capture(packets, order)
        for length in range(len(octets)):
            yield f"cut to {length}, {order}", octets[:length]
    for fault in (dict(magic=0), dict(link=1)):
        for length in (FILE_HEADER - 1, FILE_HEADER, FILE_HEADER + PACKET_HEADER):
            yield f"{fault} cut to {length}", capture([(0, 0, AUTH)], **fault)[:length]
    for captured in (31, 4096, 4097, 1 << 31, LAST):
        octets = file_header() + packet(1, 0, AUTH, captured=captured, original=captured)
        yield f"30 octets of {captured}", octets


def drawn(seed):
    """A capture of up to forty packets with times, lengths and faults drawn."""
    dice = Dice(seed)
    packets, now = [], dice.of((0, 1_700_000_000, LAST - 1000)) * 1_000_000
    for _ in range(dice.below(40)):
        now += dice.weighted(((30, dice.below(3000)), (20, dice.below(3_000_000)),
                              (15, -dice.below(5_000_000)), (15, 0), (15, dice.below(400_000_000)), (5, dice.below(10 ** 10))))
        now = min(max(now, 0), LAST * 1_000_000)
        more = dice.of((0, 0, 1, 3)) if now // 1_000_000 > 3 else 0
        octets = dice.of(FRAMES) if dice.chance(80) else dice.octets(dice.of((0, 1, 20, 300, 4096, 4097)))
        original = len(octets) + dice.of((0, 0, 0, 0, 1, 100, -1)) if octets else dice.below(2)
        packets.append(dict(seconds=now // 1_000_000 - more, microseconds=now % 1_000_000 + more * 1_000_000,
                            octets=octets, original=original))
    octets = capture(packets, dice.of(("little", "big")))
    return octets[:dice.below(len(octets))] if dice.chance(15) else octets


def everything(draws, seed):
    """Name and octets of each."""
    yield from whole().items()
    yield from at_fault().items()
    yield from cuts()
    yield ("a packet of twenty million octets",
           capture([(0, 0, AUTH), (1, 0, bytes(20_000_000)), (2, 0, AUTH)]))
    for at in range(draws):
        yield f"draw {seed}.{at}", drawn(seed * 1_000_003 + at)
