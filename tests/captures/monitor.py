"""Captures taken in monitor mode, made here in every form, and what ./capture and ./scenario --from make of them.

python3 -m tests.captures.monitor: no arguments; the last line is a count. Where tshark is at hand its reading of each file
is compared too: what is written has the frames that it sees in what was read.
"""

import pathlib
import shutil
import struct
import subprocess
import tempfile
import zlib

from tests import ending
from tools import bench_input as bench

ROOT = pathlib.Path(__file__).resolve().parents[2]
OWN, PEER, YARD = "02:00:00:00:00:01", "02:00:00:00:00:0a", "02:00:00:00:00:0b"
SETTINGS = f"ap own={OWN}"
FRAMES = [
    bench.authentication(OWN, PEER), bench.association_request(OWN, PEER), bench.data(OWN, PEER, b"list"),
    bench.data(OWN, PEER, b"\0\0list of a shelf", subtype=8), bench.control(bench.ACK, OWN), bench.deauthentication(OWN, PEER, 4),
    bench.association_response(OWN, YARD, 17, 0, elements=bench.timeout_interval(0)),
    bench.management(8, "ff:ff:ff:ff:ff:ff", YARD, bytes(12) + b"\0\3dock", third=YARD),
    bench.sa_query(OWN, PEER, 0, 7), b"\x0c" + bytes(30), bench.any_frame(0, 6, OWN, PEER, 40),
]
START = 1_700_000_000_123_456_789


def fcs(octets):
    return octets + zlib.crc32(octets).to_bytes(4, "little")


def radiotap(octets, flags=None, time=False, more=0):
    """A radiotap header before some octets: flags where they are given, behind a time of eight octets, more bit fields."""
    present = (1 if time else 0) | (2 if flags is not None else 0)
    fields = b"".join(struct.pack("<I", (present if at == 0 else 0) | (0x80000000 if at < more else 0)) for at in range(more + 1))
    body = b""
    if time:
        body += bytes(-(4 + len(fields)) % 8) + bytes(8)
    if flags is not None:
        body += bytes((flags, 0))
    return struct.pack("<BBH", 0, 0, 4 + len(fields) + len(body)) + fields + body + octets


def classic(packets, link, order="<", nano=False):
    """A classic file of packets, each a time in nanoseconds, octets, and an original length."""
    head = struct.pack(order + "IHHiIII", 0xA1B23C4D if nano else 0xA1B2C3D4, 2, 4, 0, 0, 65535, link)
    return head + b"".join(
        struct.pack(order + "IIII", time // 10**9, time % 10**9 // (1 if nano else 1000), len(octets), original) + octets
        for time, octets, original in packets)


def block(order, kind, body):
    body += bytes(-len(body) % 4)
    return struct.pack(order + "II", kind, 12 + len(body)) + body + struct.pack(order + "I", 12 + len(body))


def next_generation(packets, link, order="<", resolution=None, length=None):
    """A pcapng file; a resolution of times and a length of the FCS where they are given."""
    options = b""
    for code, value in ((9, resolution), (13, length)):
        if value is not None:
            options += struct.pack(order + "HHBxxx", code, 1, value)
    options += struct.pack(order + "HH", 0, 0) if options else b""
    units = 10**6 if resolution is None else 2 ** (resolution & 127) if resolution & 128 else 10**resolution
    laid = block(order, 0x0A0D0D0A, struct.pack(order + "IHHq", 0x1A2B3C4D, 1, 0, -1))
    laid += block(order, 1, struct.pack(order + "HHI", link, 0, 65535) + options)
    laid += block(order, 5, bytes(12))  # statistics, which hold no packet
    for time, octets, original in packets:
        ticks = time * units // 10**9
        head = struct.pack(order + "IIIII", 0, ticks >> 32, ticks & 0xFFFFFFFF, len(octets), original)
        laid += block(order, 6, head + octets)
    return laid


def plain(packets):
    """What must be written: a classic file of link type 105."""
    return classic(packets, 105)


def times(octets):
    """Packets that come one after the other, two and a half milliseconds apart."""
    return [(START + at * 2_500_000, one, len(one)) for at, one in enumerate(octets)]


def radio_forms():
    """Forms of one frame on link type 127, each as a function."""
    return {"flags, FCS": lambda one: radiotap(fcs(one), 0x10), "flags, no FCS": lambda one: radiotap(one, 0),
            "no flags": radiotap, "no flags, FCS": lambda one: radiotap(fcs(one)),
            "time and flags": lambda one: radiotap(fcs(one), 0x10, True),
            "two more fields": lambda one: radiotap(fcs(one), 0x10, True, 2), "one more field": lambda one: radiotap(one, 0, True, 1),
            "flags without FCS, FCS there": lambda one: radiotap(fcs(one), 0)}


def files():
    """Each file by a name, with what must be written of it and what is left out."""
    wanted = plain(times(FRAMES))
    for name, form in radio_forms().items():
        yield f"radiotap, {name}", classic(times([form(one) for one in FRAMES]), 127), wanted, []
    tapped = times([radiotap(fcs(one), 0x10) for one in FRAMES])
    for order in "<>":
        for nano in (False, True):
            yield f"classic {order} {nano}", classic(tapped, 127, order, nano), wanted, []
        for resolution in (None, 6, 9, 0x80 | 30):
            yield f"pcapng {order} {resolution}", next_generation(tapped, 127, order, resolution), wanted, []
    yield "802.11 with FCS", classic(times([fcs(one) for one in FRAMES]), 105), wanted, []
    yield "802.11 without FCS", classic(times(FRAMES), 105), wanted, []
    yield "802.11, the file tells of an FCS", next_generation(times([fcs(one) for one in FRAMES]), 105, length=4), wanted, []
    yield "the link type tells of an FCS", classic(times([fcs(one) for one in FRAMES]), 105 | 0x24000000), wanted, []
    yield from odd_files()


def odd_files():
    """Files of which something is left out, changed or kept as it is."""
    good, data = FRAMES[0], bench.data(OWN, PEER, b"\0\0body", subtype=8)
    tapped = [radiotap(fcs(good), 0x10), radiotap(fcs(good)[:-1] + b"?", 0x10), radiotap(fcs(good), 0x50), b"\0\0\x08",
              b"\1" + radiotap(good)[1:], b"\0\0\xff\0" + bytes(8), radiotap(good)]
    kept = [times(tapped)[0][:1] + (good, len(good)), times(tapped)[6][:1] + (good, len(good))]
    yield "left out", classic(times(tapped), 127), plain(kept), [
        "2 left out, packet 4 first: the radiotap header is cut short", "1 left out, packet 2 first: its FCS is wrong",
        "1 left out, packet 3 first: its FCS was wrong, the radio says",
        "1 left out, packet 5 first: the radiotap header is of no known form"]
    padded = data[:26] + b"\xee\xee" + data[26:]
    yield "padding", classic(times([radiotap(fcs(padded), 0x30)]), 127), plain(times([data])), []
    cut = [(START, radiotap(fcs(good), 0x10)[:-10], len(radiotap(fcs(good))) + 2)]
    yield "cut in capture", classic(cut, 127), plain([(START, good[:-6], len(good))]), []
    yield "another link", classic(times([bytes(60)]), 1), plain([]), [
        "1 left out, packet 1 first: link type 1, Ethernet, is no 802.11 frame that can be read here"]
    yield "no packet", classic([], 127), plain([]), []


def run(words, given=None):
    done = subprocess.run([str(ROOT / words[0]), *words[1:]], input=given, capture_output=True)
    return done.returncode, done.stdout, done.stderr.decode()


def converted(folder):
    """Each file is turned into what it must be, with what is left out told."""
    faults, count = [], 0
    for name, octets, wanted, left_out in files():
        file = folder / "file"
        file.write_bytes(octets)
        status, written, errors = run(["capture", str(file)])
        count += 1
        said = [line.split(": ", 2)[2] for line in errors.splitlines()[1:]]
        if status or written != wanted or sorted(said) != sorted(left_out):
            faults.append(f"{name}: {status} {errors} {written[24:80].hex()} {wanted[24:80].hex()}")
        if not left_out:
            faults += seen(folder, name, file, wanted)
    return faults, count


def fields(file):
    """What tshark reads of each frame."""
    names = ("wlan.fc.type_subtype", "wlan.ra", "wlan.ta", "wlan.fixed.status_code", "wlan.fixed.reason_code")
    words = [word for name in names for word in ("-e", name)]
    done = subprocess.run(["tshark", "-r", str(file), "-T", "fields", *words], capture_output=True, text=True)
    return done.stdout.splitlines()


def seen(folder, name, file, written):
    """tshark sees the same frames before and after."""
    if not shutil.which("tshark") or name in ("padding", "no packet") or "no flags, FCS" in name or "FCS there" in name \
            or name == "802.11 with FCS":
        return []
    after = folder / "written.pcap"
    after.write_bytes(written)
    return [] if fields(file) == fields(after) else [f"{name}: tshark reads other frames"]


def by_tshark(folder):
    """A capture that tshark writes, in either form, reads back to the same packets."""
    if not shutil.which("tshark"):
        return []
    ours, wanted, faults = folder / "ours.pcap", plain(times(FRAMES)), []
    ours.write_bytes(wanted)
    for form in ("pcap", "pcapng"):
        theirs = folder / f"theirs.{form}"
        subprocess.run(["tshark", "-r", str(ours), "-F", form, "-w", str(theirs)], capture_output=True, check=False)
        status, written, errors = run(["capture", str(theirs)])
        if status or written != wanted:
            faults.append(f"written by tshark as {form}: {status} {errors}")
    return faults


def damaged(folder):
    """Files that are no capture, or end too early: a line, and what was read before stands."""
    whole, faults = classic(times([radiotap(one, 0) for one in FRAMES[:2]]), 127), []
    ng = next_generation(times([radiotap(one, 0) for one in FRAMES[:2]]), 127)
    first = plain(times(FRAMES[:1]))
    pairs = [(b"", b"", "0 octets are no capture"), (b"text of a file", b"", "neither pcap nor pcapng"),
             (whole[:20], b"", "the file ends inside the file's header"), (whole[:-1], first, "the file ends inside a packet"),
             (whole[:24 + 16 + 40 + 5], first, "the file ends inside a packet's header"), (ng[:-1], first, "the file ends inside a block"),
             (ng[:8], b"", "the file ends inside a section's header"),
             (ng[:28] + ng[28 + 20:], b"", "a packet is of interface 0, and the file has told of 0")]
    for octets, stands, said in pairs:
        file = folder / "file"
        file.write_bytes(octets)
        status, written, errors = run(["capture", str(file)])
        if status != 1 or said not in errors or "Traceback" in errors or stands and written != stands:
            faults.append(f"{octets[:8].hex()} {len(octets)}: {status} {errors}")
    for words in ([], ["a", "b"], ["--nonsense"], ["/no/such/file"]):
        status, written, errors = run(["capture", *words])
        if status != 1 or written or errors.count("\n") != 1:
            faults.append(f"{words}: {status} {errors}")
    return faults


def told(folder):
    """A capture as a scenario lays out the frames again, octet for octet, with the clock steps between them."""
    file, faults = folder / "yard.pcap", []
    file.write_bytes(plain(times(FRAMES)))
    status, text, errors = run(["scenario", "--from", str(file), "--settings", SETTINGS])
    laid = run(["scenario", "--octets", "-"], text)[1]
    wanted, over = bench.settings(1, OWN), 0
    for at, one in enumerate(FRAMES):
        micro = (START + at * 2_500_000) // 1000 - (START + max(at - 1, 0) * 2_500_000) // 1000
        step, over = divmod(over + micro, 1024)
        wanted += (bench.clock(step) if step else b"") + bench.frame(one)
    if status or laid != wanted or f"{len(FRAMES)} packets, 0 left out" not in errors:
        faults.append(f"{status} {errors} {text.decode()}")
    words = [line.split()[1] for line in text.decode().splitlines() if line.startswith("frame ")]
    if words != ["auth-request", "assoc-request", "data", "qos-data", "ack", "deauth", "assoc-response", "beacon",
                 "sa-query-request", "raw", "raw"]:
        faults.append(f"not in words: {words}")
    for given in (["--from", str(file)], ["--settings", SETTINGS], ["--from", str(file), "--settings", "ap"],
                  ["--from", "/no/such", "--settings", SETTINGS], ["--from", str(file), "--settings", "clock 1"]):
        status, text, errors = run(["scenario", *given])
        if status != 1 or errors.count("\n") != 1 or "Traceback" in errors:
            faults.append(f"{given}: {status} {errors}")
    return faults


def main():
    with tempfile.TemporaryDirectory() as name:
        folder = pathlib.Path(name)
        faults, count = converted(folder)
        faults += by_tshark(folder) + damaged(folder) + told(folder)
    with_it = "held against tshark's reading" if shutil.which("tshark") else "tshark is not at hand"
    ending.tell(f"{count} captures, {with_it}", faults)


if __name__ == "__main__":
    main()
