"""The alphabet of events: every frame kind, primitive and clock step, and the name of its cause.

Events of one name must do the same to a state, so the names are as fine as the rules: the status
is 0 or not, the AID is in range or not, the elements end with the frame or not, a frame is to our
own address or to a group. A frame by a link has the name of one from the device's own address.
"""

import collections
import functools

from tools import bench_input as bench

OWN = bench.address("02:00:00:00:00:0a")
PEER = bench.address("02:00:00:00:01:01")
OTHER = bench.address("02:00:00:00:01:02")
# The links that the peer may name, in this order.
LINKS = bench.address("02:00:00:00:02:01"), bench.address("02:00:00:00:02:02")
NETWORK = bench.address("06:00:00:00:00:ad")
TIMEOUT = 100
QUERY_RETRY, QUERY_MAXIMUM = 30, 100
LONGEST_STEP = 65535

# by: `frame`, `primitive-N` or `clock`; about: the peer's address, None for a clock step;
# comeback: the comeback that the frame gives, None where it gives none.
Event = collections.namedtuple("Event", "by cause about octets comeback", defaults=(None,))

NAMES = {1: "AUTHENTICATE.request", 2: "AUTHENTICATE.response", 3: "DEAUTHENTICATE.request",
         4: "ASSOCIATE.request", 5: "REASSOCIATE.request", 6: "DISASSOCIATE.request",
         7: "ASSOCIATE.response", 8: "REASSOCIATE.response", 9: "SETPROTECTION",
         10: "transmit report", 11: "SA-QUERY.request"}
CODES = (0, 1, 17)


def zero_or_not(word, value):
    return f"{word} 0" if value == 0 else f"{word} not 0"


def primitive_cause(which, code):
    """The name of a primitive with a code that it takes; of any other the two numbers."""
    if which in (1, 4, 5, 9, 11) and code == 0 or which in (3, 6) and code != 0:
        return NAMES[which]
    if which in (2, 7, 8):
        return f"{NAMES[which]}, {zero_or_not('status', code)}"
    if which == 10 and code < 2:
        return f"{NAMES[which]}, {'acknowledged' if code else 'not acknowledged'}"
    return f"primitive {which}, code {code}"


def primitives(about):
    return [Event(f"primitive-{which}", primitive_cause(which, code), about,
                  bench.primitive(which, about, code))
            for which in range(13) for code in CODES]


@functools.lru_cache(maxsize=None)
def lists(about):
    """Primitive 12 with the links, with none, and with lists and devices at fault by one thing each."""
    bad = [(about, (one,)) for one in (OWN, bench.ZERO, bench.BROADCAST, about)]
    bad += [(about, LINKS[:1] * 2), (about, LINKS * 3), (OWN, LINKS), (bench.ZERO, ())]
    kinds = [("links named", about, LINKS), ("links taken away", about, ())]
    kinds += [("links at fault", device, links) for device, links in bad]
    return [Event("primitive-12", cause, about, bench.links(device, links))
            for cause, device, links in kinds]


def clocks():
    """No time runs out; a query's retry does; the exchanges and the query do; the holds do too."""
    return [Event("clock", f"{step} TU", None, bench.clock(step))
            for step in (1, QUERY_RETRY, TIMEOUT, LONGEST_STEP)]


def authentications(to, about):
    for algorithm, transaction, status in ((0, 1, 0), (0, 1, 17), (0, 2, 0), (0, 2, 1), (0, 2, 17),
                                           (0, 3, 0), (1, 1, 0), (1, 2, 0)):
        cause = f"Authentication, transaction {transaction}"
        if transaction == 2:
            cause += ", " + zero_or_not("status", status)
        if algorithm:
            cause += ", another algorithm"
        yield cause, bench.authentication(to, about, transaction, status, algorithm), None


def responses(to, about):
    for kind, make in (("Association", bench.association_response),
                       ("Reassociation", bench.reassociation_response)):
        for aid in (1, 0xC000 | 2007):
            yield f"{kind} response, status 0", make(to, about, 0, aid), None
        for aid in (0xC000, 2008):
            yield f"{kind} response, status 0, bad AID", make(to, about, 0, aid), None
        for status, comeback in ((17, None), (30, 0), (1, 5)):
            elements = b"" if comeback is None else bench.timeout_interval(comeback)
            octets = make(to, about, status, 0, elements=elements)
            yield f"{kind} response, status not 0", octets, comeback
        for status, elements in ((0, b"\0"), (17, b"\x38\5\3\0"), (30, bench.timeout_interval(0)[:-1])):
            yield f"{kind} response, broken elements", make(to, about, status, elements=elements), None


def requests(to, about):
    yield "Association request", bench.association_request(to, about), None
    yield "Reassociation request", bench.reassociation_request(to, about, OTHER), None


def farewells(to, about):
    yield "Deauthentication", bench.deauthentication(to, about), None
    yield "Disassociation", bench.disassociation(to, about), None


def acting_frames(about):
    """The frames that have a rule. A farewell to a group address goes by the same name."""
    events = []
    for to, note in ((OWN, ""), (bench.BROADCAST, " to a group address")):
        for make in (authentications, responses, requests):
            events += [Event("frame", cause + note, about, bench.frame(octets), comeback)
                       for cause, octets, comeback in make(to, about)]
        events += [Event("frame", cause, about, bench.frame(octets))
                   for cause, octets, _ in farewells(to, about)]
    return events


def queries(about):
    """SA Query requests, responses with identifiers that a record can come to and with others, and
    frames that are no query by one thing each."""
    kinds = [("SA Query request", (bench.QUERY_REQUEST, 1), {})]
    kinds += [(f"SA Query response, identifier {n}", (bench.QUERY_RESPONSE, n), {})
              for n in (0, 1, 2, 3, 257, 65535)]
    kinds += [("SA Query cut short", (bench.QUERY_RESPONSE, 1), dict(length=27)),
              ("another SA Query action", (2, 1), {}),
              ("Action No Ack", (bench.QUERY_RESPONSE, 1), dict(subtype=bench.ACTION_NO_ACK))]
    events_ = [Event("frame", cause, about, bench.frame(bench.sa_query(OWN, about, *words, **given)))
               for cause, words, given in kinds]
    return events_ + [Event("frame", "SA Query to a group address", about, bench.frame(
        bench.sa_query(bench.BROADCAST, about, what, 1)))
        for what in (bench.QUERY_REQUEST, bench.QUERY_RESPONSE)]


def actions(about):
    """Public Actions, and Action frames that are none by one thing each."""
    public = bytes((bench.PUBLIC,))
    kinds = ((public, {}, "Public Action"), (public + bytes(3), {}, "Public Action"),
             (b"", {}, "Action"), (b"\3", {}, "Action"), (b"\5", {}, "Action"),
             (public, dict(flags=bench.PROTECTED), "Action"),
             (public, dict(subtype=bench.ACTION_NO_ACK), "Action No Ack"))
    return [Event("frame", cause, about, bench.frame(bench.action(to, about, octets, **given)))
            for octets, given, cause in kinds for to in (OWN, bench.BROADCAST)]


def relayed(about):
    """Data to, from and between distribution systems: an ad hoc network tells it from data straight
    from one end to the other."""
    return [Event("frame", "relayed data", about, bench.frame(
        bench.data(to, about, b"", subtype, ds & 1, ds >> 1)))
        for subtype in (0, 8) for ds in (1, 2, 3) for to in (OWN, bench.BROADCAST)]


def other_frames(about):
    """Every type and subtype that has no rule of its own, long enough for any of them."""
    acting = {0, 1, 2, 3, 10, 11, 12}
    return [Event("frame", f"type {kind} subtype {subtype}", about,
                  bench.frame(bench.any_frame(kind, subtype, to, about, 40)))
            for kind in range(4) for subtype in range(16) for to in (OWN, bench.BROADCAST)
            if kind or subtype not in acting] + actions(about) + queries(about) + relayed(about)


@functools.lru_cache(maxsize=None)
def events(about, odd):
    """All events about a peer, with those frames that have no rule or without them."""
    return acting_frames(about) + primitives(about) + (other_frames(about) if odd else [])


@functools.lru_cache(maxsize=None)
def by_links(about):
    """The frames with a rule of a device with links, by its second one; they count as the device's."""
    return [event._replace(about=about) for event in acting_frames(LINKS[1]) + queries(LINKS[1])]
