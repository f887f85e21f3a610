"""The frame inside a packet: without what the radio put before it, and without the FCS behind it."""

import collections
import zlib

PLAIN, RADIOTAP = 105, 127
NAMES = {1: "Ethernet", 101: "IP", 113: "Linux cooked", 119: "Prism header", 163: "AVS header", 192: "PPI header"}
LONGEST = 4096
# Flags of a radiotap header: an FCS is behind the frame, padding behind the frame's header, the FCS was wrong.
WITH_FCS, WITH_PAD, BAD_FCS = 0x10, 0x20, 0x40
TSFT, FLAGS, MORE = 1, 2, 0x80000000

# The octets and the original length of a frame; or why it is left out.
Frame = collections.namedtuple("Frame", "octets original")


class LeftOut(Exception):
    """Why a packet gives no frame."""


def radiotap(octets):
    """How long the radiotap header is, and its flags, None where it has none."""
    if len(octets) < 8:
        raise LeftOut("the radiotap header is cut short")
    length = int.from_bytes(octets[2:4], "little")
    if octets[0] != 0 or length < 8:
        raise LeftOut("the radiotap header is of no known form")
    at, present = 4, int.from_bytes(octets[4:8], "little")
    first = present
    while present & MORE:
        at += 4
        if at + 4 > min(length, len(octets)):
            raise LeftOut("the radiotap header is cut short")
        present = int.from_bytes(octets[at:at + 4], "little")
    at += 4
    if first & TSFT:
        at = (at + 7) // 8 * 8 + 8
    if length > len(octets):
        raise LeftOut("the radiotap header is cut short")
    if not first & FLAGS:
        return length, None
    if at >= length:
        raise LeftOut("the radiotap header is of no known form")
    return length, octets[at]


def header_length(octets):
    """The length of a data frame's header, as its first two octets tell it."""
    second = octets[1] if len(octets) > 1 else 0
    length = 24 + (6 if second & 3 == 3 else 0)
    if octets[:1] and octets[0] & 0x80:
        length += 2 + (4 if second & 0x80 else 0)
    return length


def _without_pad(octets):
    """A data frame without the octets that bring its body to a multiple of four."""
    if not octets or octets[0] & 0x0C != 0x08:
        return octets
    length = header_length(octets)
    return octets[:length] + octets[(length + 3) // 4 * 4:]


def has_fcs(octets):
    """Whether the last four octets are the check of those before them."""
    return len(octets) > 4 and zlib.crc32(octets[:-4]).to_bytes(4, "little") == octets[-4:]


def frame(packet):
    """The frame of a packet; LeftOut where there is none, or where the radio heard it wrongly."""
    octets, original, flags = packet.octets, packet.original, None
    if packet.link == RADIOTAP:
        length, flags = radiotap(octets)
        octets, original = octets[length:], original - length
    elif packet.link != PLAIN:
        name = NAMES.get(packet.link)
        raise LeftOut(f"link type {packet.link}" + (f", {name}" if name else "") + ", is no 802.11 frame that can be read here")
    if flags is not None and flags & BAD_FCS:
        raise LeftOut("its FCS was wrong, the radio says")
    whole = len(octets) >= original
    fcs = 4 if flags is not None and flags & WITH_FCS or packet.fcs == 4 else 0
    if fcs and whole and not has_fcs(octets):
        raise LeftOut("its FCS is wrong")
    if not fcs and whole and has_fcs(octets):
        fcs = 4
    original -= fcs
    octets = octets[:max(original, 0)]
    if flags is not None and flags & WITH_PAD:
        short = len(octets) - len(_without_pad(octets))
        octets, original = _without_pad(octets), original - short
    return Frame(octets, original)
