"""Moves of a walk in an ad hoc network: either end asks and answers, and requests may cross."""

from tools import bench_input as bench

from . import walk_ap, walk_station
from .walk import (ASKED, AUTHENTICATION, GROUPS, LONGEST_STEP, SENT, fall_by_frame, fall_by_primitive,
                   let_time_pass, protect, repeat, send_data)
from .walk_link import odd_link
from .walk_odd import odd_action, odd_frame, odd_primitive, odd_response

hear_request = walk_ap.hear_authentication
hear_answer = walk_station.hear_authentication
ask = walk_station.ask_authentication
answer = walk_ap.answer_authentication
DIRECT_CONTROL = (8, 9, bench.PS_POLL)
JOIN_PRIMITIVES = (4, 5, 7, 8, 10)


def cross(walk, peer):
    """Both ends ask at once. The request that is heard takes the place of ours: the answer to ours, and
    the time that ours had, do nothing then. Now and then our own side asks once more, in vain."""
    dice = walk.dice
    ask(walk, peer)
    hear_request(walk, peer)
    if dice.chance(40):
        hear_answer(walk, peer)
    if dice.chance(40):
        walk.pass_time(dice.of((walk.timeouts[0], LONGEST_STEP, 1)))
    if dice.chance(20):
        ask(walk, peer)
    if dice.chance(60):
        answer(walk, peer)
    if dice.chance(30):
        hear_answer(walk, peer)


def run_out(walk, peer):
    """Our own request is not answered: one TU before its end, and at it."""
    ask(walk, peer)
    left = peer.left
    if peer.busy_with(SENT, (AUTHENTICATION,)) and left > 1:
        walk.pass_time(left - 1)
        (hear_answer if walk.dice.chance(20) else ask)(walk, peer)
    walk.pass_time(1)
    hear_answer(walk, peer)


def any_ds(walk, peer):
    """A frame of any type and subtype that has a class or may have one, with any pair of DS bits."""
    dice = walk.dice
    receiver = walk.own if dice.chance(80) else dice.of(GROUPS)
    kind = dice.weighted(((55, bench.DATA), (25, bench.CONTROL), (20, bench.MANAGEMENT)))
    subtype = dice.of(DIRECT_CONTROL) if kind == bench.CONTROL and dice.chance(70) else dice.below(16)
    flags = 0 if dice.chance(75) else dice.below(64) << 2
    if kind == bench.MANAGEMENT and subtype in (bench.AUTHENTICATION, bench.DEAUTHENTICATION):
        subtype = dice.of((bench.ACTION, bench.ACTION_NO_ACK))
    walk.hear(bench.any_frame(kind, subtype, receiver, peer.address, 24 + dice.below(12), b"\0", 0,
                              dice.below(4), flags))


def join_in_vain(walk, peer):
    """A frame or a primitive of a join, which is not for such a network."""
    dice = walk.dice
    shape = dice.below(4)
    if shape == 0:
        walk.ask(dice.of(JOIN_PRIMITIVES), peer.address)
    elif shape == 1:
        walk.hear(bench.association_request(walk.own, peer.address))
    elif shape == 2:
        walk.hear(bench.reassociation_request(walk.own, peer.address, dice.of(walk.peers).address))
    else:
        walk.hear(bench.disassociation(walk.own, peer.address))


def go_on(walk, peer):
    """The next thing that would bring this peer on."""
    dice = walk.dice
    if peer.busy_with(ASKED, (AUTHENTICATION,)):
        answer(walk, peer)
    elif peer.busy_with(SENT, (AUTHENTICATION,)):
        dice.of((hear_answer, hear_answer, hear_request, let_time_pass))(walk, peer)
    elif peer.state < 2:
        dice.of((ask, hear_request, cross))(walk, peer)
    else:
        dice.of((send_data, any_ds, any_ds, ask, hear_request, cross))(walk, peer)


MOVES = ((34, go_on), (8, cross), (4, run_out), (10, any_ds), (4, send_data), (3, repeat), (3, ask),
         (3, hear_request), (2, hear_answer), (2, answer), (5, fall_by_frame), (3, fall_by_primitive),
         (1, protect), (3, join_in_vain), (4, let_time_pass), (4, odd_frame), (1, odd_response),
         (2, odd_action), (3, odd_primitive), (1, odd_link))


def fill(walk):
    """Every peer of a crowd asks or is asked in turn; those over 32 find the table full."""
    for peer in walk.peers:
        walk.dice.of((ask, hear_request))(walk, peer)


def step(walk):
    walk.dice.weighted(MOVES)(walk, walk.dice.of(walk.peers))
