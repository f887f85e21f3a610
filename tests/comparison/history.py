"""What befell a peer, as the law on class 3 frames speaks of it: accepted authentications and associations,
deauthentications and teardowns, each read off an event, its answer and the exchange under way before it.

The states are not looked at, neither those of the lines nor those of the trace.
"""

import collections

from tools import bench_input as bench

from . import turns

# Exchanges as the trace numbers them.
ASKED = {2: 1, 7: 2, 8: 3}  # by the primitive that answers
AWAITING, SENT_AUTHENTICATION = (5, 6), 7
SENT = {bench.ASSOCIATION_RESPONSE: 8, bench.REASSOCIATION_RESPONSE: 9}
REPORT = 8
LAST_AID = 2007

AUTHENTICATED, ASSOCIATED = "accepted authentication", "accepted association"
# Those that have two are heard in a frame, or asked by a primitive of our own.
DEAUTHENTICATIONS = ("deauthentication heard", "deauthentication asked")
MOVED, TIMED_OUT = "move to another AP", "timeout"
DISASSOCIATIONS = ("disassociation heard", "disassociation asked")
REJECTIONS, SPARED = ("rejection heard", "rejection asked"), "rejection in edition 2"
TEARDOWNS = (*DEAUTHENTICATIONS, *DISASSOCIATIONS, *REJECTIONS, TIMED_OUT, MOVED)

Happening = collections.namedtuple("Happening", "device what")


def device_of(table, address):
    """Where a link sends, the sender is the device."""
    row = turns.row_of(table, address)
    return row.address if row else address


def exchange_of(table, device):
    return table[device].exchange if device in table else 0


def answered(settings, which, code, exchange):
    """An answer of an AP's own: status 0 accepts an authentication, another status rejects a request."""
    if exchange != ASKED[which]:
        return None
    if which == 2:
        return None if code else AUTHENTICATED
    return (REJECTIONS[1] if settings.edition == 1 else SPARED) if code else None


def of_primitive(settings, turn):
    which, code = turn.event.body[0], int.from_bytes(turn.event.body[7:9], "little")
    device = turn.event.body[1:7]
    exchange = exchange_of(turn.before, device)
    if which in ASKED:
        what = answered(settings, which, code, exchange)
    elif which == 10:
        what = ASSOCIATED if code == 1 and exchange in AWAITING else None
    else:
        what = {3: DEAUTHENTICATIONS[1], 6: DISASSOCIATIONS[1]}.get(which)
    return [Happening(device, what)] if what else []


def response(octets, exchange):
    """A (re)association response at a station that sent the request."""
    status, aid = (int.from_bytes(octets[at:at + 2], "little") for at in (26, 28))
    if exchange != SENT[octets[0] >> 4]:
        return None
    if status:
        return REJECTIONS[0]
    return ASSOCIATED if 1 <= aid & 0x3fff <= LAST_AID else None


def of_frame(settings, turn):
    """An admitted management frame."""
    octets = turn.event.body
    if turn.answer.verdict != "A" or octets[0] & 0x0c != bench.MANAGEMENT << 2:
        return []
    subtype, device = octets[0] >> 4, device_of(turn.before, octets[10:16])
    exchange = exchange_of(turn.before, device)
    what = {bench.DEAUTHENTICATION: DEAUTHENTICATIONS[0],
            bench.DISASSOCIATION: DISASSOCIATIONS[0]}.get(subtype)
    if settings.role == bench.STATION and subtype in SENT:
        what = response(octets, exchange)
    elif subtype == bench.AUTHENTICATION and octets[24:30] == b"\0\0\2\0\0\0":
        what = AUTHENTICATED if exchange == SENT_AUTHENTICATION else None
    return [Happening(device, what)] if what else []


def of_clock(turn):
    """The (re)associations that timed out are those that the step reports."""
    reports = (turn.answer.octets[at:at + REPORT] for at in range(0, turn.answer.written, REPORT))
    return [Happening(report[2:], TIMED_OUT) for report in reports if report[1] in (2, 3)]


def happenings(settings, turn):
    """What an event did; one that is refused or discarded does not count."""
    if turn.answer.refusal or turn.answer.verdict == "D":
        return []
    if turn.event.kind == bench.PRIMITIVE:
        return of_primitive(settings, turn)
    if turn.event.kind == bench.FRAME:
        return of_frame(settings, turn)
    return of_clock(turn) if turn.event.kind == bench.CLOCK else []
