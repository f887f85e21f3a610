"""Moves of a walk at a station: our own side asks, access points answer, holds run out."""

from tools import bench_input as bench

from .walk import (ASSOCIATION, AUTHENTICATION, LONGEST_STEP, REASSOCIATION, SENT, USUAL_HOLD,
                   fall_by_frame, fall_by_primitive, let_time_pass, protect, repeat,
                   send_data)
from .walk_odd import (BROKEN_ENDS, odd_action, odd_frame, odd_primitive, odd_response,
                      whole_elements)
from .walk_link import odd_link
from .walk_query import hear_query

RESPONSES = {ASSOCIATION: bench.association_response, REASSOCIATION: bench.reassociation_response}
AIDS = (0x0001, 0x4001, 0x8001, 0xC001, 2007, 0xC000 | 2007, 2)
BAD_AIDS = (0, 0xC000, 2008, 0xC000 | 2008, 0x3FFF, 0xFFFF)
REJECTIONS = (1, 17, 30, 30, 65535)
LONGEST_HOLD = 4294967295
COMEBACKS = (0, 0, 1, 2, 7, 40, 1953, 1954, 1955, 65535, 65536, 131073)
WAIT_LIMIT = 3 * LONGEST_STEP


def ask_authentication(walk, peer):
    walk.ask(1, peer.address)
    if peer.exchange is None and walk.take_place(peer):
        peer.exchange, peer.left = (SENT, AUTHENTICATION), walk.timeouts[0]


def ask_to_join(walk, peer, which=None):
    """Primitive 4 or 5: the one that fits, or now and then the other one."""
    current = walk.associated()
    if which is None:
        which = 4 if current in (None, peer) else 5
        if walk.dice.chance(12):
            which = 9 - which
    walk.ask(which, peer.address)
    if peer.exchange is not None or walk.joining() or peer.hold or peer.state < 2:
        return
    if which == 4 and current not in (None, peer) or which == 5 and current is None:
        return
    kind = ASSOCIATION if which == 4 else REASSOCIATION
    peer.exchange, peer.left = (SENT, kind), walk.timeouts[1]


def hear_authentication(walk, peer):
    """Mostly the awaited answer; now and then another transaction, algorithm or status."""
    dice = walk.dice
    algorithm = 0 if dice.chance(96) else dice.of((1, 256))
    transaction = 2 if dice.chance(94) else dice.of((0, 1, 3, 258))
    status = 0 if dice.chance(85) else dice.of((1, 13, 17, 65535))
    walk.hear(bench.authentication(walk.own, peer.address, transaction, status, algorithm))
    if algorithm == 0 and transaction == 2 and peer.busy_with(SENT, (AUTHENTICATION,)):
        peer.end_exchange()
        if status == 0 and peer.state == 1:
            peer.state = 2


def broken_end(dice):
    """One response in six has elements that do not end with the frame."""
    return dice.of(BROKEN_ENDS) if dice.chance(16) else b""


def hear_success(walk, peer, kind):
    aid = walk.dice.of(AIDS if walk.dice.chance(80) else BAD_AIDS)
    elements = b"" if walk.dice.chance(70) else whole_elements(walk.dice)
    broken = broken_end(walk.dice)
    walk.hear(RESPONSES[kind](walk.own, peer.address, 0, aid, elements=elements + broken))
    if not peer.busy_with(SENT, (kind,)) or aid in BAD_AIDS or broken:
        return
    current = walk.associated()
    if current is not None:
        current.state = 2
    peer.end_exchange()
    peer.state = 3 if walk.rsna else 4


def hear_rejection(walk, peer, kind):
    """With no element, a good one, a good one among odd ones, or only odd ones; or broken."""
    dice = walk.dice
    hold = LONGEST_HOLD if dice.chance(2) else dice.of(COMEBACKS)
    good = bench.timeout_interval(hold)
    shape = dice.below(5)
    if shape == 0:
        elements, hold = b"", USUAL_HOLD
    elif shape == 1:
        elements, hold = whole_elements(dice), USUAL_HOLD
    elif shape == 2:
        elements = good
    else:
        elements = whole_elements(dice) + good + whole_elements(dice)
    aid, status, broken = dice.of(AIDS + BAD_AIDS), dice.of(REJECTIONS), broken_end(dice)
    walk.hear(RESPONSES[kind](walk.own, peer.address, status, aid, elements=elements + broken))
    if peer.busy_with(SENT, (kind,)) and not broken:
        peer.end_exchange()
        peer.state, peer.hold = 2, hold


def hear_response(walk, peer):
    """Of the kind that was sent, or now and then of the other kind."""
    dice = walk.dice
    kind = peer.exchange[1] if peer.busy_with(SENT) else dice.of((ASSOCIATION, REASSOCIATION))
    if dice.chance(5):
        kind = ASSOCIATION + REASSOCIATION - kind
    (hear_success if dice.chance(65) else hear_rejection)(walk, peer, kind)


def wait_out(walk, peer):
    """One TU before the hold ends a join is refused, at its end it is not."""
    if peer.hold > WAIT_LIMIT:
        ask_to_join(walk, peer)
        walk.pass_time(LONGEST_STEP)
        return
    while peer.hold > 1:
        walk.pass_time(min(peer.hold - 1, LONGEST_STEP))
    ask_to_join(walk, peer)
    walk.pass_time(1)
    ask_to_join(walk, peer)


def run_out(walk, peer):
    """Nobody answers the join under way: its time runs out, or all but one TU of it."""
    joining = walk.joining()
    if joining:
        walk.pass_time(max(joining.left - walk.dice.of((0, 0, 0, 1)), 1))
    else:
        let_time_pass(walk, peer)


def go_on(walk, peer):
    """The next thing that would bring the join of this peer on."""
    dice = walk.dice
    if peer.busy_with(SENT, (AUTHENTICATION,)):
        hear_authentication(walk, peer)
    elif peer.busy_with(SENT):
        hear_response(walk, peer)
    elif peer.state < 2:
        ask_authentication(walk, peer)
    elif peer.hold:
        dice.of((wait_out, ask_to_join, ask_authentication))(walk, peer)
    elif peer.state == 2:
        ask_to_join(walk, peer)
    elif peer.state == 3 and dice.chance(60):
        protect(walk, peer)
    else:
        dice.of((send_data, send_data, ask_to_join, ask_authentication))(walk, peer)


MOVES = ((49, go_on), (3, run_out), (5, send_data), (3, repeat), (4, ask_to_join), (3, ask_authentication),
         (2, hear_response), (2, hear_authentication), (3, fall_by_frame),
         (2, fall_by_primitive), (1, protect), (5, let_time_pass),
         (6, odd_frame), (2, odd_response), (2, odd_action), (5, odd_primitive), (2, hear_query),
         (1, odd_link))


def longest_hold(walk):
    """A comeback of 4,294,967,295 TU is refused 8 to its last TU and then runs out: 65,537
    steps of 65,535, the last one split."""
    peer = walk.peers[0]
    walk.ask(1, peer.address)
    walk.hear(bench.authentication(walk.own, peer.address, 2))
    walk.ask(4, peer.address)
    comeback = bench.timeout_interval(LONGEST_HOLD)
    walk.hear(bench.association_response(walk.own, peer.address, 30, 0, elements=comeback))
    for _ in range(LONGEST_HOLD // LONGEST_STEP - 1):
        walk.pass_time(LONGEST_STEP)
    for last_step in (LONGEST_STEP - 1, 1):
        walk.pass_time(last_step)
        walk.ask(4, peer.address)


def fill(walk):
    """Every peer of a crowd is asked in turn; half the time all 32 then run out together."""
    for peer in walk.peers:
        ask_authentication(walk, peer)
    if walk.dice.chance(50):
        if walk.timeouts[0] > 1:
            walk.pass_time(walk.timeouts[0] - 1)
        walk.pass_time(1)
        for peer in reversed(walk.peers):
            ask_authentication(walk, peer)


def step(walk):
    """While a join is under way its access point gets more of the events than the others."""
    dice = walk.dice
    peer = walk.joining() if dice.chance(40) else None
    dice.weighted(MOVES)(walk, peer or dice.of(walk.peers))
