"""Sweeps: one peer is brought into a given state again and again, and every type and subtype to
every sort of Address 1 at its boundary lengths, then Action frames, every primitive and code, every
sort of links, at an access point every answer to a request, and in an ad hoc network every pair of DS
bits, is tried there."""

from tools import bench_input as bench

from . import walk_link
from .walk import FOREIGN, GROUPS, LONGEST_STEP, NETWORK, OWN, Walk
from .walk_odd import FILLS, LEAST_MANAGEMENT, least_length

RESPONSES = (bench.ASSOCIATION_RESPONSE, bench.REASSOCIATION_RESPONSE)
PRIMITIVES = tuple(range(13))
CODES = (0, 1, 2, 65535)


def reset(walk, peer):
    """No record, no exchange, no hold: our own farewell, no links, then time for the usual hold."""
    walk.ask(3, peer.address, 3)
    if peer.links:
        walk_link.take_away(walk, peer)
    walk.pass_time(LONGEST_STEP)


def reach_at_ap(walk, peer, state):
    if state > 0:
        walk.hear(bench.authentication(walk.own, peer.address))
    if state > 1:
        walk.ask(2, peer.address)
    if state > 2:
        walk.hear(bench.association_request(walk.own, peer.address))
        walk.ask(7, peer.address)
        walk.ask(10, peer.address, 1)
    if state == 3 and not walk.rsna:
        walk.hear(bench.association_request(walk.own, peer.address))
        walk.ask(7, peer.address, 1)


def reach_by_links(walk, peer, state):
    """The same for a device with links; without a record it has none."""
    peer.clear()
    if state > 0:
        walk_link.name(walk, peer, peer.radios[:1 + walk.dice.below(4)])
    reach_at_ap(walk, peer, state)


def reach_at_station(walk, peer, state):
    if state > 0:
        walk.ask(1, peer.address)
    if state > 1:
        walk.hear(bench.authentication(walk.own, peer.address, 2))
    if state > 2:
        walk.ask(4, peer.address)
        walk.hear(bench.association_response(walk.own, peer.address))


# Each sweep's way to its state, role, RSNA, state and rule. State 3 is reached where RSNA is required,
# or by a rejection at an access point of the second edition; in an ad hoc network either way leads on.
SWEEPS = tuple((way, role, rsna, state, rule)
               for way, role, rule in ((reach_at_ap, bench.ACCESS_POINT, ()),
                                       (reach_at_station, bench.STATION, (2, 1)))
               for rsna, state in ((0, 0), (0, 1), (1, 2), (1, 3), (0, 4)))
SWEEPS += tuple((reach_at_ap, bench.ACCESS_POINT, rsna, state, rule)
                for rsna, state, rule in ((0, 4, (1, 1)), (0, 3, (2, 0)), (0, 4, (2, 0)),
                                          (1, 3, (2, 1)), (0, 4, (2, 1)), (0, 4, (2, 1, 10, 25))))
SWEEPS += tuple((way, bench.AD_HOC, rsna, state, rule)
                for way, rsna, state, rule in (
                    (reach_at_ap, 0, 0, (1, 0, 201, 1000, NETWORK)),
                    (reach_at_ap, 1, 1, (2, 1, 201, 1000, NETWORK)),
                    (reach_at_station, 0, 1, (1, 0, 201, 1000, OWN)),
                    (reach_at_ap, 0, 2, (2, 1, 201, 1000, NETWORK)),
                    (reach_at_station, 1, 2, (1, 1, 201, 1000, NETWORK))))
SWEEPS += tuple((reach_by_links, bench.ACCESS_POINT, rsna, state, rule)
                for rsna, state, rule in ((0, 1, ()), (1, 2, ()), (1, 3, ()), (0, 4, (2, 1, 10, 25))))


def sweep_frames(walk, peer, reach):
    """Only the kinds with fields of their own can change the state; after those it is reached
    anew. A response has two lengths more, for an element or two."""
    for kind in range(4):
        for subtype in range(16):
            least = least_length(kind, subtype)
            acting = kind == bench.MANAGEMENT and subtype in LEAST_MANAGEMENT
            longer = (2, 7) if acting and subtype in RESPONSES else ()
            for receiver in (walk.own, GROUPS[0], FOREIGN[0]):
                for length in [least + more for more in (-1, 0, 1) + longer]:
                    walk.hear(bench.any_frame(kind, subtype, receiver, peer.address, length,
                                              walk.dice.of(FILLS)))
                    if acting and length >= least and receiver != FOREIGN[0]:
                        reach()


def sweep_actions(walk, peer):
    """Action frames about a Public Action: its length, category and flags, and those beside them."""
    for subtype in (bench.ACTION, bench.ACTION_NO_ACK):
        for receiver in (walk.own, GROUPS[0], FOREIGN[0]):
            for category in (bench.PUBLIC - 1, bench.PUBLIC, bench.PUBLIC + 1):
                for flags in (0, bench.PROTECTED, 0x80):
                    for octets in (0, 1, 2):
                        body = bytes((category, 0))[:octets]
                        walk.hear(bench.action(receiver, peer.address, body, subtype, flags))


def sweep_query_frames(walk, peer):
    """Frames about an SA Query: its length, category, action, identifier and flags, and those beside."""
    for subtype in (bench.ACTION, bench.ACTION_NO_ACK):
        for receiver in (walk.own, GROUPS[0], FOREIGN[0]):
            for body in (b"\x07\0\1\0", b"\x08\0\1\0", b"\x08\1\0\0", b"\x08\1\2\0", b"\x08\1\1\1",
                         b"\x08\2\1\0", b"\x09\1\1\0", b"\x08\1\1\0"):
                for length in range(6):
                    flags = bench.PROTECTED if length % 2 else 0
                    octets = (body + b"\0")[:length]
                    walk.hear(bench.action(receiver, peer.address, octets, subtype, flags))


def sweep_queries(walk, peer, reach):
    """A request; then, with its query due, sent, at and about a retry and its maximum, each: a second
    request of either kind, primitive 11, a response, or time."""
    request = bench.association_request(walk.own, peer.address)
    again = bench.reassociation_request(walk.own, peer.address, FOREIGN[0])
    response = bench.sa_query(walk.own, peer.address, bench.QUERY_RESPONSE, 1)
    events = ((walk.hear, request), (walk.hear, again), (walk.ask, 11, peer.address),
              (walk.hear, response), (walk.pass_time, 1), (walk.pass_time, walk.maximum))
    retry, maximum = walk.retry, walk.maximum
    for sent in (False, True):
        for step in (0, retry - 1, retry, retry + 1, 2 * retry, maximum - 1, maximum, maximum + 1):
            for event, *given in events:
                reach()
                walk.hear(request)
                if sent:
                    walk.ask(11, peer.address)
                walk.pass_time(step)
                event(*given)
                walk.ask(11, peer.address)
                walk.hear(request)


def sweep_ds(walk, peer, reach):
    """Every type and subtype with each pair of DS bits, to our own address and to a group."""
    for kind in range(4):
        for subtype in range(16):
            for ds in range(4):
                for receiver in (walk.own, GROUPS[0]):
                    walk.hear(bench.any_frame(kind, subtype, receiver, peer.address, 34, ds=ds))
            if kind == bench.MANAGEMENT:
                reach()


def sweep_links(walk, peer, reach):
    """Lists of every length up to six and of 255; then each address that is no link, alone and behind
    a good one; then each that is no device. A second peer has a record, at an access point with a link."""
    other, radios = walk.peers[1], peer.radios
    bad = (bench.ZERO, *GROUPS, walk.own, peer.address, radios[0], other.address, other.radios[0])
    lists = [(radios * 64)[:count] for count in (0, 1, 2, 3, 4, 5, 6, 255)]
    lists += [[*radios[:count], address] for address in bad for count in (0, 1, 3)]
    walk.hear(bench.authentication(walk.own, other.address))
    walk.name_links(other.address, other.radios[:1])
    for links in lists:
        walk.name_links(peer.address, links)
        walk.name_links(peer.address, [])
        reach()
    for device in bad:
        for links in ([], radios[1:2]):
            walk.name_links(device, links)
    for which in range(13):
        walk.ask(which, other.radios[0], 1 if which in (3, 6) else 0)
    walk.name_links(other.address, [])
    walk.ask(3, other.address, 3)


def sweep_primitives(walk, peer, reach):
    for which in PRIMITIVES:
        for code in CODES:
            walk.ask(which, peer.address, code)
            reach()


def sweep_answers(walk, peer, reach):
    """Each request, each code in answer to it, and a report, which only a success awaits."""
    requests = ((7, bench.association_request(walk.own, peer.address)),
                (8, bench.reassociation_request(walk.own, peer.address, FOREIGN[0])))
    for which, request in requests:
        for code in CODES:
            reach()
            walk.hear(request)
            walk.ask(which, peer.address, code)
            walk.ask(10, peer.address, 1)


def swept(dice, index):
    """The octets of one sweep."""
    way, role, rsna, state, rule = SWEEPS[index]
    walk = Walk(dice, role, 2, rsna, (1000, 1000), rule)
    peer = walk.peers[0]

    def reach():
        reset(walk, peer)
        way(walk, peer, state)

    reach()
    sweep_frames(walk, peer, reach)
    sweep_actions(walk, peer)
    sweep_primitives(walk, peer, reach)
    sweep_query_frames(walk, peer)
    sweep_links(walk, peer, reach)
    if role == bench.ACCESS_POINT:
        sweep_answers(walk, peer, reach)
        sweep_queries(walk, peer, reach)
    if role == bench.AD_HOC:
        sweep_ds(walk, peer, reach)
    return walk.octets()
