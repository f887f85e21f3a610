"""A walk: one bench input in the making, with a guess at what each peer is in.

The guess only steers the choice of events, so that most of them mean something. It is no
third implementation: it may drift, and nothing is ever compared with it.
"""

import random

from tools import bench_input as bench

AUTHENTICATION, ASSOCIATION, REASSOCIATION = 1, 2, 3
ASKED, AWAITING, SENT = "asked", "awaiting", "sent"
PLACES, LINKS = 32, 4
LONGEST_STEP = 65535
USUAL_HOLD = 1954

OWN = bench.address("02:00:00:00:00:0a")
NETWORK = bench.address("06:00:00:00:00:ad")
GROUPS = (bench.BROADCAST, bench.address("01:00:5e:00:00:fb"), bench.address("03:00:00:00:00:0a"))
FOREIGN = (bench.address("02:00:00:00:00:0b"), bench.address("06:ff:ff:ff:ff:ff"), bench.ZERO)


class Dice:
    """Chances drawn with random() alone: the one draw Python promises never to change."""

    def __init__(self, seed):
        self._draw = random.Random(seed).random

    def below(self, bound):
        return int(self._draw() * bound)

    def of(self, choices):
        return choices[int(self._draw() * len(choices))]

    def chance(self, percent):
        return self._draw() * 100 < percent

    def weighted(self, choices):
        """One of (weight, choice) pairs; the weights add up to 100."""
        left = self._draw() * 100
        for weight, choice in choices:
            left -= weight
            if left < 0:
                return choice
        return choices[-1][1]

    def octets(self, count):
        return bytes(self.below(256) for _ in range(count))


class Peer:
    """The guess for one device; state 0 is 'no record'. Its radios are what it may name as links."""

    __slots__ = ("address", "radios", "state", "exchange", "left", "hold", "query", "identifier", "links")

    def __init__(self, number):
        self.address = bench.address(f"02:00:00:00:01:{number:02x}")
        self.radios = [bench.address(f"02:00:00:01:{number:02x}:{radio:02x}") for radio in range(LINKS)]
        self.clear()

    def clear(self):
        """The query is the TU left of one that runs, 0 for the mark of one that timed out, or None."""
        self.state, self.exchange, self.left, self.hold = 0, None, 0, 0
        self.query, self.identifier, self.links = None, 0, ()

    def end_exchange(self):
        self.exchange, self.left = None, 0

    def busy_with(self, stage, kinds=(ASSOCIATION, REASSOCIATION)):
        return self.exchange is not None and self.exchange[0] == stage and self.exchange[1] in kinds


class Walk:
    """Settings, peers and the records so far."""

    def __init__(self, dice, role, peer_count, rsna, timeouts, rule=()):
        """The rule is edition and protection, then a query's retry and maximum times, then the network's
        address; what is left out makes the settings record shorter."""
        self.dice, self.role, self.rsna, self.timeouts = dice, role, rsna, timeouts
        rule_ = (*rule, *bench.USUAL_RULE[len(rule):])
        self.edition, self.protection, self.retry, self.maximum, _ = rule_
        self.own = OWN
        self.peers = [Peer(number) for number in range(peer_count)]
        self.records = [bench.settings(role, OWN, rsna, *timeouts, *rule)]

    def events(self):
        return len(self.records) - 1

    def octets(self):
        return b"".join(self.records)

    # Events

    def hear(self, octets):
        """A frame of a device with links comes by one of them, or now and then from the device itself."""
        sender = next((peer for peer in self.peers if peer.links and peer.address == octets[10:16]), None)
        if sender and self.dice.chance(85):
            octets = octets[:10] + self.dice.of(sender.links) + octets[16:]
        self.records.append(bench.frame(octets))

    def ask(self, which, peer_address, code=0):
        self.records.append(bench.primitive(which, peer_address, code))

    def name_links(self, device, links):
        self.records.append(bench.links(device, links))

    def pass_time(self, step):
        self.records.append(bench.clock(step))
        if step == 0:
            return
        for peer in self.peers:
            if peer.state:
                self._age(peer, step)

    def _age(self, peer, step):
        peer.hold = max(0, peer.hold - step)
        if peer.query:
            peer.query = max(0, peer.query - step)
        if peer.left:
            peer.left = max(0, peer.left - step)
            if not peer.left:
                if peer.exchange[1] != AUTHENTICATION:
                    peer.state = 2
                peer.end_exchange()
        if peer.state == 1 and peer.exchange is None and not peer.hold and not peer.links:
            peer.clear()

    # Who is in what

    def take_place(self, peer):
        """Gives the peer a record; says whether it has one now."""
        if not peer.state and sum(1 for other in self.peers if other.state) < PLACES:
            peer.state = 1
        return peer.state > 0

    def associated(self):
        return next((peer for peer in self.peers if peer.state > 2), None)

    def joining(self):
        return next((peer for peer in self.peers if peer.busy_with(SENT)), None)

    # Falls

    def rejected(self, peer):
        """By an AP's own answer: the first edition lowers to State 2, the second only State 4, to 3,
        and where management frames are protected nothing."""
        if self.edition == 1:
            peer.state, peer.query = 2, None
        elif peer.state == 4 and not self.protection:
            peer.state, peer.query = 3, None

    def deauthenticated(self, peer):
        if peer.state > 1:
            peer.state, peer.query = 1, None
            peer.end_exchange()

    def disassociated(self, peer, hold=0):
        if peer.state > 2:
            peer.state, peer.query = 2, None
            peer.end_exchange()
            peer.hold = max(peer.hold, hold)


# Moves that the roles share; each makes one event or a few

def fall_by_frame(walk, peer):
    """The peer leaves, now and then by a group address, with reason 0 or a tail of octets."""
    dice = walk.dice
    receiver = walk.own if dice.chance(85) else dice.of(GROUPS)
    reason = dice.of((0, 1, 3, 8, 65535))
    rest = b"" if dice.chance(90) else dice.octets(1 + dice.below(9))
    if dice.chance(40):
        walk.hear(bench.deauthentication(receiver, peer.address, reason, rest))
        walk.deauthenticated(peer)
    else:
        walk.hear(bench.disassociation(receiver, peer.address, reason, rest))
        walk.disassociated(peer, USUAL_HOLD if walk.role == bench.STATION else 0)


def fall_by_primitive(walk, peer):
    dice = walk.dice
    reason = dice.of((1, 3, 8, 65535))
    if dice.chance(40):
        walk.ask(3, peer.address, reason)
        walk.deauthenticated(peer)
        peer.end_exchange()
    else:
        walk.ask(6, peer.address, reason)
        walk.disassociated(peer)


def protect(walk, peer):
    walk.ask(9, peer.address)
    if peer.state == 3:
        peer.state = 4


def send_data(walk, peer):
    dice = walk.dice
    receiver = walk.own if dice.chance(85) else dice.of(GROUPS)
    ds = dice.below(4)
    body = dice.octets(dice.below(12))
    walk.hear(bench.data(receiver, peer.address, body, dice.below(16), ds & 1, ds >> 1))


def repeat(walk, _peer):
    """The last event once more, unless that was a clock step: answers and reports come once."""
    last = walk.records[-1]
    if walk.events() and last[2] != bench.CLOCK:
        walk.records.append(last)


def let_time_pass(walk, _peer):
    """A step that is small, or stops at, just before or just after the end of some time."""
    dice = walk.dice
    ends = [time for peer in walk.peers for time in (peer.left, peer.hold, peer.query) if time]
    ends += [walk.retry - (walk.maximum - peer.query) % walk.retry for peer in walk.peers if peer.query]
    if ends and dice.chance(55):
        step = dice.of(ends) + dice.below(3) - 1
    else:
        step = dice.of((1, 1, 1, 2, 5, 1 + dice.below(50), 1953, 1954))
    if dice.chance(3):
        step = dice.of((LONGEST_STEP, LONGEST_STEP - 1, 0, 0))
    walk.pass_time(min(max(step, 0), LONGEST_STEP))
