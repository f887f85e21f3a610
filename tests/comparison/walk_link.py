"""Moves of a walk at an access point whose peers are devices with several links."""

from tools import bench_input as bench

from . import walk_ap
from .walk import GROUPS, LINKS
from .walk_odd import STRANGERS

# More links than a device can have; only their number counts.
TOO_MANY = (5, 5, 6, 7, 42, 255)


def name(walk, peer, links):
    """A good list, which may be empty; it counts in State 1, or where there is no record yet."""
    walk.name_links(peer.address, links)
    if peer.state < 2 and (not links or walk.take_place(peer)):
        peer.links = tuple(links)


def name_some(walk, peer):
    """One to four of the device's radios, from any of them on."""
    dice = walk.dice
    first = dice.below(LINKS)
    radios = peer.radios[first:] + peer.radios[:first]
    name(walk, peer, radios[:1 + dice.below(LINKS)])


def take_away(walk, peer):
    name(walk, peer, [])


def bad_address(walk, peer):
    """What no list of this device may hold: invalid, our own, the device's, or of another in use."""
    dice = walk.dice
    other = dice.of(walk.peers)
    used = [other.address, *other.links] if other is not peer else []
    return dice.of((dice.of(GROUPS), bench.ZERO, walk.own, peer.address, *used, *used))


def odd_list(walk, peer):
    """A list at fault in one address or one that is given twice; another device's address is no fault
    while that has no record, and the guess does not know."""
    dice = walk.dice
    links = [*peer.radios]
    at = dice.below(LINKS)
    links[at] = links[at - 1] if dice.chance(30) else bad_address(walk, peer)
    walk.name_links(peer.address, links[:at + 1 + dice.below(LINKS - at)])


def odd_device(walk, peer):
    """A list for an address that is no device's: invalid, our own, or some device's link."""
    dice = walk.dice
    radios = tuple(link for other in walk.peers for link in other.links)
    device = dice.of((dice.of(GROUPS), bench.ZERO, walk.own) + radios * 3)
    walk.name_links(device, [] if dice.chance(40) else peer.radios[:1 + dice.below(LINKS)])


def too_many(walk, peer):
    """A count over four, of good addresses or of none that is good."""
    dice = walk.dice
    count = dice.of(TOO_MANY)
    radios = [bench.address(f"02:00:00:02:00:{n:02x}") for n in range(count)]
    walk.name_links(peer.address, radios if dice.chance(70) else [bench.ZERO] * count)


def name_stranger(walk, _peer):
    """A device that is heard of nowhere else; its links are taken away again, so that a step frees it."""
    device = walk.dice.of(STRANGERS)
    if walk.dice.chance(50):
        walk.name_links(device, [bench.address("02:00:00:03:00:01")])
        walk.ask(2, bench.address("02:00:00:03:00:01"))
    walk.name_links(device, [])


ODD = (odd_list, odd_list, odd_device, too_many, name_stranger)


def odd_link(walk, peer):
    """Any primitive 12 that is at fault or of little use, in any role."""
    walk.dice.of(ODD)(walk, peer)


MOVES = ((6, name_some), (3, take_away), (6, odd_link), (85, None))


def fill(walk):
    """Every device of a crowd names its links in turn; those over 32 find the table full."""
    for peer in walk.peers:
        name_some(walk, peer)


def step(walk):
    """A move about links, or one of any access point."""
    move = walk.dice.weighted(MOVES)
    if move is None:
        walk_ap.step(walk)
    else:
        move(walk, walk.dice.of(walk.peers))
