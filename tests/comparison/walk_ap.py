"""Moves of a walk at an access point: peers ask, our own side answers and reports."""

from tools import bench_input as bench

from .walk import (ASKED, ASSOCIATION, AUTHENTICATION, AWAITING, REASSOCIATION, fall_by_frame,
                   fall_by_primitive, let_time_pass, protect, repeat, send_data)
from .walk_odd import odd_action, odd_elements, odd_frame, odd_primitive, odd_response
from .walk_query import answer_query, ask_query, denied, hear_query, wait_for_query

ANSWERS = {ASSOCIATION: 7, REASSOCIATION: 8}
REJECTIONS = (1, 12, 17, 30, 65535)


def hear_authentication(walk, peer):
    """Mostly a good request; now and then another algorithm, transaction or status."""
    dice = walk.dice
    algorithm = 0 if dice.chance(92) else dice.of((1, 2, 3, 256, 65535))
    transaction = 1 if dice.chance(92) else dice.of((0, 2, 3, 257, 65535))
    status = 0 if dice.chance(90) else dice.of((1, 17))
    rest = b"" if dice.chance(90) else odd_elements(dice)
    walk.hear(bench.authentication(walk.own, peer.address, transaction, status, algorithm, rest))
    if algorithm == 0 and transaction == 1 and walk.take_place(peer):
        peer.exchange, peer.left = (ASKED, AUTHENTICATION), 0


def hear_request(walk, peer):
    dice = walk.dice
    elements = b"" if dice.chance(85) else odd_elements(dice)
    receiver = walk.own if dice.chance(95) else bench.BROADCAST
    if dice.chance(55):
        kind = ASSOCIATION
        octets = bench.association_request(receiver, peer.address, elements=elements)
    else:
        kind = REASSOCIATION
        current = dice.of((walk.own, bench.ZERO, bench.BROADCAST, dice.of(walk.peers).address))
        octets = bench.reassociation_request(receiver, peer.address, current, elements=elements)
    walk.hear(octets)
    if peer.state > 1 and receiver == walk.own and not denied(walk, peer):
        peer.exchange = (ASKED, kind)


def answer_authentication(walk, peer):
    status = 0 if walk.dice.chance(85) else walk.dice.of((1, 13, 17, 65535))
    walk.ask(2, peer.address, status)
    if peer.busy_with(ASKED, (AUTHENTICATION,)):
        peer.end_exchange()
        if status == 0 and peer.state == 1:
            peer.state = 2


def answer_request(walk, peer):
    """The answer to the exchange asked, or now and then to the other kind."""
    dice = walk.dice
    kind = peer.exchange[1] if peer.busy_with(ASKED) else dice.of((ASSOCIATION, REASSOCIATION))
    if dice.chance(6):
        kind = ASSOCIATION + REASSOCIATION - kind
    status = 0 if dice.chance(78) else dice.of(REJECTIONS)
    walk.ask(ANSWERS[kind], peer.address, status)
    if not peer.busy_with(ASKED, (kind,)):
        return
    if status == 0:
        peer.exchange = (AWAITING, kind)
    else:
        peer.end_exchange()
        walk.rejected(peer)


def report(walk, peer):
    acknowledged = 1 if walk.dice.chance(85) else 0
    walk.ask(10, peer.address, acknowledged)
    if peer.busy_with(AWAITING):
        peer.end_exchange()
        if acknowledged:
            peer.state = 3 if walk.rsna else 4
            peer.query = None if walk.rsna else peer.query


def go_on_with_query(walk, peer):
    """What brings a query on, or the request that is let pass once it has timed out."""
    if peer.query == 0 or walk.dice.chance(12):
        hear_request(walk, peer)
    else:
        walk.dice.of((ask_query, ask_query, wait_for_query, wait_for_query, wait_for_query,
                      hear_query, answer_query))(walk, peer)


def go_on(walk, peer):
    """The next thing that would bring this peer on."""
    dice = walk.dice
    if peer.busy_with(ASKED, (AUTHENTICATION,)):
        answer_authentication(walk, peer)
    elif peer.busy_with(ASKED):
        answer_request(walk, peer)
    elif peer.busy_with(AWAITING):
        report(walk, peer)
    elif peer.state < 2:
        hear_authentication(walk, peer)
    elif peer.state == 2:
        hear_request(walk, peer)
    elif peer.state == 3 and dice.chance(60):
        protect(walk, peer)
    elif peer.query is not None and dice.chance(70):
        go_on_with_query(walk, peer)
    else:
        dice.of((send_data, hear_request, hear_authentication, send_data))(walk, peer)


MOVES = ((44, go_on), (6, send_data), (4, repeat), (5, hear_request), (3, hear_authentication),
         (3, fall_by_frame), (2, fall_by_primitive), (2, answer_request), (1, report),
         (1, answer_authentication), (2, protect), (3, let_time_pass), (3, hear_query), (1, ask_query),
         (7, odd_frame), (3, odd_response), (3, odd_action), (7, odd_primitive))


def fill(walk):
    """Every peer of a crowd asks in turn; those over 32 find the table full."""
    for peer in walk.peers:
        hear_authentication(walk, peer)


def step(walk):
    walk.dice.weighted(MOVES)(walk, walk.dice.of(walk.peers))
