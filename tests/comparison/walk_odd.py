"""Odd events of a walk: any type, subtype and length, bad addresses, bad codes, odd elements, and
frames near a line between two classes."""

from tools import bench_input as bench

from .walk import FOREIGN, GROUPS, SENT

STRANGERS = (bench.address("02:00:00:00:02:01"), bench.address("fe:ff:ff:ff:ff:ff"))
LEAST_MANAGEMENT = {bench.AUTHENTICATION: 30, bench.ASSOCIATION_REQUEST: 28,
                    bench.REASSOCIATION_REQUEST: 34, bench.ASSOCIATION_RESPONSE: 30,
                    bench.REASSOCIATION_RESPONSE: 30, bench.DEAUTHENTICATION: 26,
                    bench.DISASSOCIATION: 26}
FIXED_LENGTHS = (0, 1, 2, 9, 10, 11, 15, 16, 17, 23, 24, 25, 26, 28, 30, 34, 40)
# What follows the 24 octets: nothing set, a first and a second authentication, a success, a
# rejection with a comeback of 2, and a shower of octets.
FILLS = (b"\0", b"\0\0\1\0\0\0", b"\0\0\2\0\0\0", b"\1\0\0\0\1\xc0",
         b"\1\0\x11\0\0\0\x38\5\3\2\0\0\0", b"\x38\5\3\xff\7\1\0\x80\xfe\x5a\2")
# Ends that break the elements before them: one octet left over, or an element that passes the
# frame's end by one octet or by more.
BROKEN_ENDS = (b"\x38", b"\0", b"\xff", b"\x38\5", b"\0\1", b"\x38\5\3\0", b"\x38\5\3\1\0\0",
               b"\x38\4\3\0\0", bench.timeout_interval(0) + b"\x38\5\3",
               bench.element(221, b"\x38\5\3\0\0\0\0", length=8),
               bench.element(221, b"\x38\5\3\0\0\0\0", length=255))
CODES = (0, 1, 2, 17, 256, 65535)
SINGLE_CODE = (1, 4, 5, 9, 11)
ANY_BUT_ZERO = (3, 6)
# The primitives that are not for a role; in a role out of range every one is refused.
OTHER_ROLES = {bench.ACCESS_POINT: (1, 4, 5), bench.STATION: (2, 7, 8, 10, 11),
               bench.AD_HOC: (4, 5, 6, 7, 8, 9, 10, 11)}


def least_length(kind, subtype):
    if kind == bench.CONTROL:
        return 10 if subtype in (bench.CTS, bench.ACK) else 16
    return LEAST_MANAGEMENT.get(subtype, 24) if kind == bench.MANAGEMENT else 24


def whole_elements(dice):
    """A few elements without a good comeback; they end where their lengths say."""
    parts = []
    for _ in range(dice.below(4)):
        parts.append(dice.of((
            bench.timeout_interval(9, kind=dice.of((0, 1, 2, 4, 255))),
            bench.element(56, b"\3\5\0\0"),
            bench.element(56, b"\3\5\0\0\0\0"),
            bench.element(56),
            bench.element(dice.of((0, 1, 55, 57, 221, 255)), b"\x38\5\3\1\0\0\0"),
            bench.element(dice.below(56), dice.octets(dice.below(20))),
            bench.element(5, b"\3\1\0\0\0"))))
    return b"".join(parts)


def odd_elements(dice):
    """Whole elements, or with an end that breaks them."""
    return whole_elements(dice) + (dice.of(BROKEN_ENDS) if dice.chance(50) else b"")


def odd_response(walk, peer):
    """A (re)association response that nobody waits for, or one octet too long or too short for its
    elements: in any role, in any state, now and then to or from a bad address."""
    dice = walk.dice
    make = dice.of((bench.association_response, bench.reassociation_response))
    receiver = dice.weighted(((70, walk.own), (20, dice.of(GROUPS)), (10, dice.of(FOREIGN))))
    sender = dice.weighted(((88, peer.address), (4, dice.of(STRANGERS)), (3, walk.own),
                            (3, dice.of(GROUPS)), (2, bench.ZERO)))
    elements = whole_elements(dice)
    octets = make(receiver, sender, dice.of((0, 0, 17, 30)), dice.of((0xC001, 1, 0)), elements=elements)
    if dice.chance(50) or peer.busy_with(SENT):
        octets = octets[:-1] if elements and dice.chance(60) else octets + dice.octets(1)
    walk.hear(octets)


def odd_action(walk, peer):
    """An Action frame near a Public Action: 24 octets or a few more, category 4 or another, now and
    then protected, without acknowledgement, or to or from a bad address."""
    dice = walk.dice
    receiver = dice.weighted(((66, walk.own), (24, dice.of(GROUPS)), (10, dice.of(FOREIGN))))
    sender = dice.weighted(((82, peer.address), (10, dice.of(STRANGERS)), (3, walk.own),
                            (3, dice.of(GROUPS)), (2, bench.ZERO)))
    category = bench.PUBLIC if dice.chance(55) else dice.of((0, 3, 5, 6, 8, 127, 132, 255))
    octets = (bytes((category,)) + dice.octets(9))[:dice.of((0, 1, 1, 2, 10))]
    flags = dice.weighted(((55, 0), (25, bench.PROTECTED), (20, dice.below(64) << 2)))
    subtype = bench.ACTION if dice.chance(85) else bench.ACTION_NO_ACK
    version = 0 if dice.chance(95) else 1 + dice.below(3)
    walk.hear(bench.action(receiver, sender, octets, subtype, flags, version))


def odd_frame(walk, peer):
    """One frame of any type and subtype, near the least length of its kind or of a fixed one."""
    dice = walk.dice
    kind, subtype = dice.weighted(((50, 0), (22, 1), (22, 2), (6, 3))), dice.below(16)
    receiver = dice.weighted(((68, walk.own), (16, dice.of(GROUPS)), (16, dice.of(FOREIGN))))
    sender = dice.weighted(((86, peer.address), (4, dice.of(STRANGERS)), (3, walk.own),
                            (4, dice.of(GROUPS)), (3, bench.ZERO)))
    version = 0 if dice.chance(94) else 1 + dice.below(3)
    least = least_length(kind, subtype)
    length = dice.weighted(((25, least), (15, least - 1), (20, least + 1),
                            (20, least + dice.below(40)), (19, dice.of(FIXED_LENGTHS)),
                            (1, bench.LONGEST_FRAME - dice.below(2))))
    flags = 0 if dice.chance(80) else dice.below(64) << 2
    walk.hear(bench.any_frame(kind, subtype, receiver, sender, length, dice.of(FILLS), version,
                              dice.below(4), flags))
    heard = version == 0 and receiver not in FOREIGN and sender == peer.address
    if heard and kind == bench.MANAGEMENT and length >= least:
        if subtype == bench.DEAUTHENTICATION:
            walk.deauthenticated(peer)
        elif subtype == bench.DISASSOCIATION:
            walk.disassociated(peer)


def bad_code(dice, which):
    """A code this primitive does not allow, where there is one."""
    if which in SINGLE_CODE:
        return dice.of(CODES[1:])
    if which in ANY_BUT_ZERO:
        return 0
    return dice.of(CODES[2:]) if which == 10 else dice.of(CODES)


def good_code(dice, which):
    if which in ANY_BUT_ZERO:
        return dice.of(CODES[1:])
    return 0 if which in SINGLE_CODE else dice.below(2)


def odd_primitive(walk, peer):
    """A primitive that is unknown, of another role, with a bad code, or to a bad or a
    strange address, a link's too."""
    dice = walk.dice
    fault = dice.below(5)
    which = 1 + dice.below(11)
    if fault == 0:
        which = dice.of((0, 12, 13, 128, 255))
        walk.ask(which, peer.address, dice.of(CODES))
    elif fault == 1:
        which = dice.of(OTHER_ROLES.get(walk.role, SINGLE_CODE))
        walk.ask(which, peer.address, good_code(dice, which))
    elif fault == 2:
        which = dice.of((1, 3, 4, 5, 6, 9, 10, 11))
        walk.ask(which, peer.address, bad_code(dice, which))
    elif fault == 3:
        radios = tuple(link for other in walk.peers for link in other.links)
        walk.ask(which, dice.of(GROUPS + (bench.ZERO, walk.own) + radios), good_code(dice, which))
    elif which > 1:
        walk.ask(which, dice.of(STRANGERS), good_code(dice, which))
    else:
        walk.ask(9, dice.of(STRANGERS), 0)
