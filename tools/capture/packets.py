"""The packets of a capture file, classic pcap or pcapng, in either byte order, one after the other."""

import collections
import struct

# A packet: its link type, its time in nanoseconds, the octets captured, the original length, and how many octets of
# FCS the file says are behind each, None where it does not say.
Packet = collections.namedtuple("Packet", "link time octets original fcs")

CLASSIC = {0xA1B2C3D4: 1000, 0xA1B23C4D: 1}  # nanoseconds of the lower part of a time
SECTION, ORDER = 0x0A0D0D0A, 0x1A2B3C4D
INTERFACE, PACKET, SIMPLE, ENHANCED = 1, 2, 3, 6
NANO = 10**9
LONGEST_BLOCK = 1 << 24
# The upper bits of a classic file's link type may say how long the FCS is, in units of two octets.
LINK_BITS, FCS_KNOWN = 0x03FFFFFF, 0x04000000


class CaptureFault(Exception):
    """The file is no capture, or ends in the middle of something."""


def _exactly(source, count, what):
    octets = source.read(count)
    if len(octets) < count:
        raise CaptureFault(f"the file ends inside {what}: {len(octets)} of {count} octets are there")
    return octets


def _classic(source, head, order, unit):
    """Packets of a classic file behind the four octets of its number."""
    rest = _exactly(source, 20, "the file's header")
    link = struct.unpack(order + "I", rest[16:20])[0]
    fcs = (link >> 28) * 2 if link & FCS_KNOWN else None
    while True:
        head = source.read(16)
        if not head:
            return
        if len(head) < 16:
            raise CaptureFault(f"the file ends inside a packet's header: {len(head)} of 16 octets are there")
        seconds, part, captured, original = struct.unpack(order + "IIII", head)
        if captured > LONGEST_BLOCK:
            raise CaptureFault(f"a packet of {captured} octets can't be: the file is damaged there")
        yield Packet(link & LINK_BITS, seconds * NANO + part * unit, _exactly(source, captured, "a packet"), original, fcs)


def _options(octets, order):
    """The options of a block by their codes, the first of each."""
    found, at = {}, 0
    while at + 4 <= len(octets):
        code, length = struct.unpack(order + "HH", octets[at:at + 4])
        if code == 0:
            break
        found.setdefault(code, octets[at + 4:at + 4 + length])
        at += 4 + (length + 3) // 4 * 4
    return found


def _interface(body, order):
    """Link type, snapshot length, how many units of its times a second has, seconds to add, and the octets of FCS."""
    link, _, snap = struct.unpack(order + "HHI", body[:8])
    options = _options(body[8:], order)
    resolution = options.get(9, b"\x06")[0]
    units = 2 ** (resolution & 0x7F) if resolution & 0x80 else 10 ** resolution
    offset = struct.unpack(order + "q", options[14])[0] if len(options.get(14, b"")) == 8 else 0
    return link, snap, units, offset, options[13][0] if options.get(13) else None


def _packet(kind, body, order, interfaces):
    """A packet of one of the three kinds of blocks that hold one."""
    if kind == SIMPLE:
        which, high, low, original = 0, 0, 0, struct.unpack(order + "I", body[:4])[0]
        captured, data = None, body[4:]
    else:
        form = "IIIII" if kind == ENHANCED else "HxxIIII"
        which, high, low, captured, original = struct.unpack(order + form, body[:20])
        data = body[20:]
    if which >= len(interfaces):
        raise CaptureFault(f"a packet is of interface {which}, and the file has told of {len(interfaces)}")
    link, snap, units, offset, fcs = interfaces[which]
    if captured is None:
        captured = min(original, snap or original, len(data))
    if captured > len(data):
        raise CaptureFault(f"a packet of {captured} octets stands in a block with room for {len(data)}")
    time = (high << 32 | low) * NANO // units + offset * NANO
    return Packet(link, max(time, 0), data[:captured], original, fcs)


def _blocks(source):
    """Blocks of a pcapng file behind the first four octets: kind, body and byte order. Each section has its own order."""
    order, head = None, struct.pack("<I", SECTION)
    while head:
        if len(head) < 4:
            raise CaptureFault("the file ends inside a block's header")
        rest = _exactly(source, 4, "a block's header")
        body = b""
        if head == struct.pack("<I", SECTION):
            body = _exactly(source, 4, "a section's header")
            order = "<" if struct.unpack("<I", body)[0] == ORDER else ">"
            if struct.unpack(order + "I", body)[0] != ORDER:
                raise CaptureFault("a section of neither byte order: the file is damaged there")
        kind, length = struct.unpack(order + "I", head)[0], struct.unpack(order + "I", rest)[0]
        if length % 4 or not 12 + len(body) <= length <= LONGEST_BLOCK:
            raise CaptureFault(f"a block of {length} octets can't be: the file is damaged there")
        body += _exactly(source, length - 8 - len(body), "a block")
        yield kind, body[:-4], order
        head = source.read(4)


def _next_generation(source):
    interfaces = []
    for kind, body, order in _blocks(source):
        try:
            if kind == SECTION:
                interfaces = []
            elif kind == INTERFACE:
                interfaces.append(_interface(body, order))
            elif kind in (PACKET, SIMPLE, ENHANCED):
                yield _packet(kind, body, order, interfaces)
        except (struct.error, IndexError):
            raise CaptureFault(f"a block of kind {kind} is too short for what it should hold") from None


def packets(source):
    """The packets of an open file."""
    head = source.read(4)
    if len(head) < 4:
        raise CaptureFault(f"{len(head)} octets are no capture")
    for order in "<>":
        number = struct.unpack(order + "I", head)[0]
        if number in CLASSIC:
            yield from _classic(source, head, order, CLASSIC[number])
            return
    if head != struct.pack("<I", SECTION):
        raise CaptureFault(f"it begins with {head.hex(' ')}, which is neither pcap nor pcapng")
    yield from _next_generation(source)
