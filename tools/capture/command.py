"""The command line of capture."""

import collections
import os
import struct
import sys

from . import frames, packets

USAGE = "capture FILE > FILE.pcap, or capture --help"
HELP = """\
capture: turns a capture taken in monitor mode into one that the importer takes

  capture FILE > FILE.pcap   FILE '-' is standard input

FILE is pcap or pcapng, in either byte order, with times in micro- or nanoseconds or any other unit, of link type 127
(radiotap) or 105 (802.11). Standard output gets a classic pcap of link type 105 with microseconds: each frame without the
radiotap header, without padding behind its header and without the FCS. There is an FCS where the radiotap header or the
file says so, and where the last four octets are the check of the others. Packets that were cut short in capture stay so.

Left out, and told on standard error with the first packet of each kind: frames whose FCS is wrong, packets of other link
types, radiotap headers that can't be read. The status is 1 where the file is no capture or is damaged; what was read
before the damage stands.
"""
PIECE = 1 << 16


def header():
    return struct.pack("<IHHiIII", 0xA1B2C3D4, 2, 4, 0, 0, 65535, frames.PLAIN)


def laid(time, frame):
    """A packet with its header; the part of a microsecond is dropped."""
    seconds, micro = divmod(time // 1000, 10**6)
    return struct.pack("<IIII", seconds & 0xFFFFFFFF, micro, len(frame.octets), frame.original) + frame.octets


class Counted:
    """How many packets there were, and why some were left out."""

    def __init__(self):
        self.packets, self.first, self.why = 0, {}, collections.Counter()

    def leave_out(self, why):
        self.why[why] += 1
        self.first.setdefault(why, self.packets)

    def lines(self, name):
        out = sum(self.why.values())
        yield f"capture: {name}: {self.packets} packets, {self.packets - out} written, {out} left out"
        for why, count in self.why.most_common():
            yield f"capture: {name}: {count} left out, packet {self.first[why]} first: {why}"


def convert(source, put, counted):
    """Reads a file and writes what can be read as frames."""
    put(header())
    for packet in packets.packets(source):
        counted.packets += 1
        try:
            put(laid(packet.time, frames.frame(packet)))
        except frames.LeftOut as why:
            counted.leave_out(str(why))


def said(line):
    print(line, file=sys.stderr)


def run(file):
    """0, or 1 where the file can't be read to its end."""
    if sys.stdout is None or sys.stdout.isatty():
        said(f"capture: the octets of a capture are nothing to look at: {USAGE}")
        return 1
    counted, status = Counted(), 0
    try:
        with (open(file, "rb") if file != "-" else sys.stdin.buffer) as source:
            convert(source, sys.stdout.buffer.write, counted)
    except packets.CaptureFault as fault:
        said(f"capture: {file}: {fault}")
        status = 1
    for line in counted.lines(file):
        said(line)
    sys.stdout.buffer.flush()
    return status


def main(words):
    """Ends with 0, or with 1 and a line on standard error."""
    if words in (["--help"], ["-h"]):
        sys.stdout.write(HELP)
        return 0
    if len(words) != 1 or words[0].startswith("--"):
        said(f"capture: one file is wanted: {USAGE}")
        return 1
    try:
        return run(words[0])
    except BrokenPipeError:
        os.dup2(os.open(os.devnull, os.O_WRONLY), sys.stdout.fileno())
        return 0
    except OSError as fault:
        said(f"capture: {words[0]}: {fault.strerror}")
        return 1
    except KeyboardInterrupt:
        return 130
