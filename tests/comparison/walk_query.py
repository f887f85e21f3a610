"""Moves of a walk about SA Query: denied requests, the query's own frames, retries and its end."""

from tools import bench_input as bench

from .walk import FOREIGN, GROUPS, LONGEST_STEP
from .walk_odd import STRANGERS

IDENTIFIERS = 65536
# Up to the identifier's end and a little more.
LENGTHS = (24, 25, 26, 27, 27, 28, 29, 40)


def denied(walk, peer):
    """Whether a request is denied; where no query runs one starts. One that is not denied uses up
    the mark of a query that timed out."""
    marked = peer.query == 0
    if marked:
        peer.query = None
    if walk.edition == 1 or not walk.protection or peer.state != 4 or marked:
        return False
    if peer.query is None:
        peer.identifier = (peer.identifier + 1) % IDENTIFIERS
        peer.query = walk.maximum
    return True


def ask_query(walk, peer):
    """Primitive 11: for a query whose request is due, or for none."""
    walk.ask(11, peer.address)


def answer_query(walk, peer):
    """The response that ends the query."""
    walk.hear(bench.sa_query(walk.own, peer.address, bench.QUERY_RESPONSE, peer.identifier))
    peer.query = None


def hear_query(walk, peer):
    """A query frame that is as it should be, or other than that in one thing or more."""
    dice = walk.dice
    receiver = dice.weighted(((80, walk.own), (14, dice.of(GROUPS)), (6, dice.of(FOREIGN))))
    sender = peer.address if dice.chance(94) else dice.of(STRANGERS + (walk.own, bench.ZERO))
    what = dice.weighted(((46, bench.QUERY_REQUEST), (46, bench.QUERY_RESPONSE), (8, dice.of((2, 3, 255)))))
    near = (peer.identifier + dice.of((0, 0, 0, 1, -1, 256))) % IDENTIFIERS
    identifier = near if dice.chance(85) else dice.of((0, 1, 65535))
    given = dict(flags=bench.PROTECTED if dice.chance(30) else 0,
                 subtype=bench.ACTION if dice.chance(92) else bench.ACTION_NO_ACK)
    length = 28 if dice.chance(75) else dice.of(LENGTHS)
    walk.hear(bench.sa_query(receiver, sender, what, identifier, length, **given))
    acts = receiver == walk.own and sender == peer.address and length > 27 \
        and given["subtype"] == bench.ACTION
    if acts and what == bench.QUERY_RESPONSE and identifier == peer.identifier and peer.query:
        peer.query = None


def wait_for_query(walk, peer):
    """To the next retry or to the maximum, or one TU before or after it."""
    dice = walk.dice
    retry = walk.retry - (walk.maximum - peer.query) % walk.retry
    step = dice.of((retry, retry, peer.query)) + dice.of((0, 0, -1, 1))
    walk.pass_time(min(max(step, 1), LONGEST_STEP))


def every_identifier(walk):
    """One query after the other, each ended by its response, until the identifier has come round:
    from 65,535 it passes to 0."""
    peer = walk.peers[0]
    request = bench.association_request(walk.own, peer.address)
    walk.hear(bench.authentication(walk.own, peer.address))
    walk.ask(2, peer.address)
    walk.hear(request)
    walk.ask(7, peer.address)
    walk.ask(10, peer.address, 1)
    peer.state = 4
    for _ in range(IDENTIFIERS + 1):
        walk.hear(request)
        denied(walk, peer)
        if peer.identifier in (0, 1, IDENTIFIERS - 1):
            walk.ask(11, peer.address)
        answer_query(walk, peer)
