"""A capture as the text of a scenario: each frame in words with the clock steps between them.

The capture is a classic pcap of link type 105, and time is counted as the importer counts it: whole TU since the latest
time seen, what is left over carried to the next; nothing before the first packet or behind the last frame.
"""

import struct

from tools import bench_input as bench

from . import frame_words, frames
from .read import Reader
from .source import UsageFault
from .values import Fault

NUMBER, LINK_TYPE = 0xA1B2C3D4, 105
FILE_HEADER, PACKET_HEADER = 24, 16
TU = 1024
# Fields in the order of a line; a frame's sender and receiver first.
ORDER = [field.name for field in frame_words.ALL_FIELDS]


class Capture:
    """Reads packets; says what is wrong with the file in the end."""

    def __init__(self, source, name):
        self.source, self.packets, self.left_out, self.fault = source, 0, 0, ""
        head = source.read(FILE_HEADER)
        if len(head) < FILE_HEADER:
            raise UsageFault(f"{name}: {len(head)} octets are no capture")
        self.order = next((order for order in "<>" if struct.unpack(order + "I", head[:4])[0] == NUMBER), None)
        if self.order is None:
            raise UsageFault(f"{name}: not a pcap with microseconds: './capture {name}' makes one of other captures")
        link = struct.unpack(self.order + "I", head[20:])[0]
        if link != LINK_TYPE:
            raise UsageFault(f"{name}: link type {link}, not {LINK_TYPE}: './capture {name}' makes one of radiotap captures")

    def read(self):
        """Each packet: its time in microseconds, its octets, and whether it was cut short."""
        while True:
            head = self.source.read(PACKET_HEADER)
            if not head:
                return
            if len(head) < PACKET_HEADER:
                self.fault = "a packet's header is cut"
                return
            seconds, micro, captured, original = struct.unpack(self.order + "IIII", head)
            octets = self.source.read(min(captured, 1 << 24))
            if len(octets) < captured:
                self.fault = "a packet is cut"
                return
            self.packets += 1
            yield seconds * 10**6 + micro, octets, captured < original


class Writer:
    """Puts frames into words; gives a name to each address when it comes up."""

    def __init__(self, settings):
        self.reader, self._named = Reader(), {}
        self.settings = self.reader.line(settings).settings
        if self.settings is None:
            raise UsageFault("--settings is a settings line, as 'ap own=02:00:00:00:00:01'")
        self._named = {self.settings.own: "own", bench.BROADCAST: "broadcast"}

    def name(self, address):
        """Lines that name an address which has no name yet; a group's, and one that is no peer's, stays as it is."""
        if address in self._named or address[0] & 1 or not any(address):
            return []
        name = f"peer-{len(self._named) - 1}"
        line = f"name {name} = {bench.address_text(address)}"
        self.reader.line(line)
        self._named[address] = name
        return [line]

    def said(self, name, value):
        kind = frame_words.FIELDS[name].kind
        if kind == "address":
            return f"{name}={self._named.get(value) or bench.address_text(value)}"
        return f"{name}={value.hex() if kind == 'octets' else value}"

    def frame(self, octets):
        """The lines of a frame: its words where they write the same octets, else the octets."""
        found = frames.decode(octets)
        lines = []
        if found:
            row, fields = found
            usual = frames.default(row, self.settings, {key: fields[key] for key in ("from", "status") if key in fields})
            given = {name: fields[name] for name in ORDER if fields.get(name) is not None
                     and (name == "from" or fields[name] != usual.get(name, 0))}
            for name, value in given.items():
                lines += self.name(value) if frame_words.FIELDS[name].kind == "address" else []
            words = " ".join([f"frame {row.word}"] + [self.said(name, value) for name, value in given.items()])
            try:
                if self.reader.line(words).events[0].frame == octets:
                    return lines + [words]
            except Fault:
                pass
        return lines + [f"frame raw {octets.hex()}"]


def texts(source, name, settings):
    """The lines of the scenario, and the capture once it is read."""
    capture, writer = Capture(source, name), Writer(settings)
    yield f"# {name}, as a scenario", capture
    yield settings, capture
    latest, over = None, 0
    for time, octets, cut in capture.read():
        passed = 0 if latest is None else max(0, time - latest)
        latest, over = time if latest is None else max(latest, time), over + passed
        if cut or len(octets) > bench.LONGEST_FRAME:
            capture.left_out += 1
            why = "cut short in capture" if cut else f"{len(octets)} octets are too many"
            yield f"# packet {capture.packets} is left out: {why}", capture
            continue
        whole, over = divmod(over, TU)
        if whole:
            yield f"clock {whole}", capture
        for line in writer.frame(octets):
            yield line, capture
