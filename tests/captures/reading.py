"""What the request makes of a capture: a small reading of its text, beside which the programs are held.

"Read such files into bench records, each packet a frame with a clock step before it for whole TU passed,
if any (none before the first); microseconds over are carried to the next. Time that goes back counts as
none, and the latest time seen stays the one to count from; a packet left out still counts for time. ..
Longer gaps become steps of 65,535, the rest last. Packets cut short in capture or over 4,096 octets are
left out and counted. Refusals of the importer: 3 cut header or packet, else 1 other number, 2 other link
type; earlier records stand."

Where the program carries time from packet to packet, here it is the latest time less the first one's.
"""

import collections

from tools import bench_input as bench

from .layout import FILE_HEADER, LINK_TYPE, NUMBER, PACKET_HEADER

Packet = collections.namedtuple("Packet", "time octets captured original")
Read = collections.namedtuple("Read", "records packets left_out refusal")
TU, LONGEST_STEP = 1024, 65535


def numbers(octets, order):
    return [int.from_bytes(octets[at:at + 4], order) for at in range(0, len(octets), 4)]


def packets_in(octets, order):
    """The whole packets, and whether what is behind them is a cut one."""
    found = []
    while octets:
        head, octets = octets[:PACKET_HEADER], octets[PACKET_HEADER:]
        if len(head) < PACKET_HEADER:
            return found, True
        seconds, microseconds, captured, original = numbers(head, order)
        if len(octets) < captured:
            return found, True
        found.append(Packet(seconds * 1_000_000 + microseconds, octets[:captured], captured, original))
        octets = octets[captured:]
    return found, False


def judged(capture):
    """The packets and the refusal, by the header first."""
    if len(capture) < FILE_HEADER:
        return [], 3
    order = next((order for order in ("little", "big") if numbers(capture[:4], order) == [NUMBER]), None)
    if order is None:
        return [], 1
    if numbers(capture[20:FILE_HEADER], order) != [LINK_TYPE]:
        return [], 2
    found, cut = packets_in(capture[FILE_HEADER:], order)
    return found, 3 if cut else 0


def is_kept(packet):
    return packet.captured >= packet.original and packet.captured <= bench.LONGEST_FRAME


def steps(units):
    """Clock steps of so many TU, the rest last."""
    whole, rest = divmod(units, LONGEST_STEP)
    return bench.clock(LONGEST_STEP) * whole + (bench.clock(rest) if rest else b"")


def read(settings, capture):
    """The records that come of a capture behind a settings record, and the numbers of the last line."""
    packets, refusal = judged(capture)
    laid, latest, told = [settings], 0, 0
    for at, packet in enumerate(packets):
        latest = max(latest, packet.time) if at else packet.time
        if is_kept(packet):
            passed = (latest - packets[0].time) // TU
            laid += [steps(passed - told), bench.frame(packet.octets)]
            told = passed
    left_out = sum(not is_kept(packet) for packet in packets)
    return Read(b"".join(laid), len(packets), left_out, refusal)


def last_line(found):
    return f"import: {found.packets} packets, {found.left_out} left out, refusal {found.refusal}"
