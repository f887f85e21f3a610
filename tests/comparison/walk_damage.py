"""Short bench inputs that are damaged, and walks whose settings are out of range."""

import functools

from tools import bench_input as bench

from .walk import NETWORK, OWN, Walk
from .walk_link import odd_link
from .walk_odd import odd_frame, odd_primitive

PEER = bench.address("02:00:00:00:01:00")
RADIOS = [bench.address(f"02:00:00:02:00:{n:02x}") for n in range(255)]
GOOD = dict(role=bench.ACCESS_POINT, own=OWN, rsna=0, authentication_timeout=100,
            association_timeout=100)
# One change each to good settings; every event after them is refused with 2.
OUT_OF_RANGE = (
    dict(role=0), dict(role=3), dict(role=255), dict(rsna=2), dict(rsna=255),
    dict(authentication_timeout=0), dict(association_timeout=0),
    dict(role=bench.STATION, authentication_timeout=0, association_timeout=0),
    dict(own=bench.ZERO), dict(own=bench.BROADCAST), dict(own="03:00:00:00:00:0a"),
    dict(own="01:00:00:00:00:00"), dict(role=bench.STATION, own=bench.ZERO),
    dict(edition=0), dict(edition=3), dict(edition=255), dict(role=bench.STATION, edition=0),
    dict(protection=2), dict(edition=2, protection=255),
    dict(role=bench.STATION, edition=2, protection=2),
    dict(query_retry=0), dict(query_maximum=0), dict(role=bench.STATION, query_retry=0),
    dict(edition=2, protection=1, query_retry=0, query_maximum=0),
    dict(edition=3, query_retry=201), dict(protection=2, query_maximum=1000),
    dict(role=bench.AD_HOC, edition=2), dict(role=bench.AD_HOC, query_retry=201),
    *(dict(role=bench.AD_HOC, network=bad)
      for bad in (bench.ZERO, bench.BROADCAST, "03:00:00:00:00:0a", "01:00:00:00:00:00")),
    *(dict(role=bench.AD_HOC, network=NETWORK, **bad)
      for bad in (dict(own=bench.ZERO), dict(own=bench.BROADCAST), dict(rsna=2), dict(edition=3),
                  dict(protection=2), dict(query_retry=0), dict(query_maximum=0),
                  dict(authentication_timeout=0), dict(association_timeout=0))),
    dict(role=4, network=NETWORK), dict(rsna=2, network=NETWORK),
    dict(role=bench.STATION, edition=0, network=NETWORK))


def base():
    """The records that damage is done to: settings, then one event of each kind."""
    return [bench.settings(**GOOD),
            bench.frame(bench.control(bench.ACK, OWN)),
            bench.primitive(3, PEER, 7),
            bench.links(PEER, RADIOS[:1]),
            bench.clock(5),
            bench.frame(bench.authentication(OWN, PEER))]


def cuts():
    """The base cut at each position up to the end of its fourth event."""
    whole = b"".join(base())
    end = sum(len(record) for record in base()[:5])
    return [whole[:length] for length in range(end + 6)] + [whole[:-1]]


def _placed(bad, place):
    """The base with one bad record put in before the one at this place."""
    records = base()
    return b"".join(records[:place] + [bad] + records[place:])


def odd_lists():
    """Lists of links whose length is not that of their count, and lists that only look so: of none, of
    more than a device can have, of as many as the count can say."""
    whole = bench.links(PEER, RADIOS)[bench.HEAD:]
    counts = (0, 1), (1, 0), (1, 2), (2, 1), (4, 5), (5, 4), (255, 254), (254, 255)
    faults = [bench.record(bench.LINKS, whole[:6] + bytes((count,)) + whole[7:7 + 6 * given])
              for count, given in counts]
    faults += [bench.record(bench.LINKS, whole[:length]) for length in (0, 1, 6)]
    faults += [bench.record(bench.LINKS, whole[:6] + bytes((count,)) + whole[7:7 + 6 * count + more])
               for count in (0, 1, 4, 5, 254) for more in (-1, 1)]
    faults += [bench.record(bench.LINKS, bytes(length)) for length in (8, 13, 4096, 4103, 65535)]
    return faults + [bench.links(PEER, RADIOS[:count]) for count in (0, 1, 4, 5, 6, 254, 255)]


def bad_records():
    """Records at fault, and a few that only look so (an empty frame, one of 4,096)."""
    mark_faults = [bench.record(bench.CLOCK, b"\1\0", mark=mark)
                   for mark in (b"\x0b\x04", b"\x0a\x03", b"\x03\x0b", b"\0\0", b"\xff\xff")]
    kind_faults = [bench.record(kind, bytes(length)) for kind in (5, 6, 128, 255)
                   for length in (0, 2)]
    length_faults = [bench.record(kind, bytes(length)) for kind, good in ((1, 9), (3, 2))
                     for length in (0, good - 1, good + 1, 256 + good)]
    long_frames = [bench.record(bench.FRAME, bytes(length)) for length in (4097, 8192, 65535)]
    lying = [bench.record(bench.CLOCK, b"\1\0", length=1), bench.record(bench.FRAME, b"", 12)]
    sound = [bench.frame(b""), bench.frame(bytes(bench.LONGEST_FRAME)),
             bench.clock(0), bench.primitive(0, PEER, 0)]
    return (mark_faults + kind_faults + length_faults + long_frames + lying + sound + odd_lists()
            + [bench.settings(**GOOD)])


def bad_starts():
    """Inputs whose first record is at fault, and settings with nothing after them."""
    good = bench.settings(**GOOD)
    body = good[5:]
    rest = b"".join(base()[1:])
    longer = body + b"\1\0\1\0\1\0" + NETWORK + b"\1"
    lengths = [bench.record(bench.SETTINGS, longer[:length]) for length in (0, 1, 11, *range(13, 26))]
    lying = [bench.record(bench.SETTINGS, longer[:length], length=other)
             for length, other in ((12, 14), (14, 12), (14, 18), (18, 14), (18, 24), (24, 18))]
    starts = lengths + lying + [bench.record(bench.SETTINGS, body, mark=b"\0\0"), b"", b"\n"]
    cut = [bench.settings(**GOOD, **last)[:-1]
           for last in (dict(edition=2), dict(query_retry=1), dict(network=NETWORK))]
    return [start + rest for start in starts] + cut + [good, good + good, good + b"\0", b"\x0b", b"\x0c"]


def every_count():
    """Lists of links of every length that a count can say, none of them at fault."""
    return bench.settings(**GOOD) + b"".join(bench.links(PEER, RADIOS[:count]) for count in range(256))


@functools.cache
def damaged_inputs():
    """All of them, always the same ones in the same order; made once, as each is asked for by its number."""
    middle = [_placed(bad, place) for bad in bad_records() for place in (1, 3)]
    return cuts() + middle + bad_starts() + [every_count()]


def refused_walk(dice, index, events):
    """A walk under settings out of range: frames, primitives, lists of links and clock steps."""
    changed = dict(GOOD, **OUT_OF_RANGE[index % len(OUT_OF_RANGE)])
    walk = Walk(dice, changed["role"], 3, 0, (100, 100))
    walk.records[0] = bench.settings(**changed)
    while walk.events() < events:
        peer = dice.of(walk.peers)
        shape = dice.below(4)
        if shape == 0:
            odd_frame(walk, peer)
        elif shape == 1:
            odd_primitive(walk, peer)
        elif shape == 2:
            odd_link(walk, peer)
        else:
            walk.pass_time(dice.of((0, 1, 100, 65535)))
    return walk.octets()
