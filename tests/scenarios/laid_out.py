"""Tests of what the words of a scenario lay out: frames, settings and primitives, against their octets."""

from tools import bench_input as bench
from tools.scenario import primitives

from .playing import inputs, lines_of

OWN, PEER, OTHER = "02:00:00:00:00:01", "02:00:00:00:00:0a", "06:01:02:03:04:05"
# The primitives by number, each with the name of its code.
PRIMITIVES = (("authenticate", "code"), ("respond-authenticate", "status"),
              ("deauthenticate", "reason"), ("associate", "code"), ("reassociate", "code"),
              ("disassociate", "reason"), ("respond-associate", "status"),
              ("respond-reassociate", "status"), ("set-protection", "code"),
              ("report", "acknowledged"), ("query", "code"))


def event(line, first=f"ap own={OWN}"):
    """The one event of a line."""
    return lines_of(f"{first}\n{line}\n")[1].events[0]


def frames_as_laid_out():
    """The usual frames, against the layouts that the other tests use."""
    pairs = [
        ("auth-request", bench.authentication(OWN, PEER)),
        ("assoc-request", bench.association_request(OWN, PEER)),
        (f"reassoc-request current-ap={OTHER}", bench.reassociation_request(OWN, PEER, OTHER)),
        ("deauth", bench.deauthentication(OWN, PEER)),
        ("disassoc", bench.disassociation(OWN, PEER)),
        ("data", bench.data(OWN, PEER)),
        ("qos-data", bench.data(OWN, PEER, b"\0\0", subtype=8)),
        ("rts", bench.control(bench.RTS, OWN, PEER)),
        ("action", bench.action(OWN, PEER)),
        ("action category=5 body=00", bench.action(OWN, PEER, b"\5\0")),
        ("action-no-ack category=4", bench.action(OWN, PEER, b"\4", bench.ACTION_NO_ACK)),
        ("public-action", bench.action(OWN, PEER, b"\4")),
        ("public-action body=0a01", bench.action(OWN, PEER, b"\4\x0a\1")),
        ("public-action flags=0x40", bench.action(OWN, PEER, b"\4", flags=bench.PROTECTED)),
        ("public-action length=24", bench.action(OWN, PEER)),
        ("auth-request length=29", bench.authentication(OWN, PEER)[:29]),
        ("sa-query-request", bench.sa_query(OWN, PEER, 0, 1)),
        ("sa-query-request id=65535", bench.sa_query(OWN, PEER, 0, 65535)),
        ("sa-query-response id=0x102", bench.action(OWN, PEER, b"\x08\1\2\1")),
        ("sa-query-response id=2 body=00 flags=0x40",
         bench.action(OWN, PEER, b"\x08\1\2\0\0", flags=bench.PROTECTED)),
        ("sa-query-response length=27", bench.sa_query(OWN, PEER, 1, 1, 27)),
        ("action category=8 body=000100", bench.sa_query(OWN, PEER, 0, 1)),
    ]
    elements = bench.timeout_interval(5) + b"\xdd\0"
    response = bench.association_response(OWN, PEER, 17, 0, elements=elements)
    at_station = event(f"frame assoc-response from={PEER} status=17 comeback=5 elements=dd00",
                       f"station own={OWN}")
    faults = [] if at_station.frame == response else ["assoc-response at a station"]
    rsna = event(f"frame assoc-request from={PEER}", f"ap own={OWN} rsna=1")
    if rsna.frame != bench.association_request(OWN, PEER, capability=0x0011):
        faults.append("assoc-request where RSNA is required")
    ad_hoc = f"ad-hoc own={OWN} network={OTHER}"
    if event(f"frame data from={PEER}", ad_hoc).frame != b"\x08" + bytes(3) + bench.address(OWN) \
            + bench.address(PEER) + bench.address(OTHER) + bytes(2):
        faults.append("data in an ad hoc network")
    if lines_of(ad_hoc)[0].settings.record != bench.settings(3, OWN, network=OTHER):
        faults.append("settings of an ad hoc network")
    return faults + [f"frame {words}" for words, octets in pairs
                     if event(f"frame {words} from={PEER}").frame != octets]


def settings_as_laid_out():
    """Each word of the settings in its place: a record of 12 octets, of 14 where edition or protection
    is given, of 18 where a time of a query is, of 24 where a network's address is. A second settings
    line begins a second bench input."""
    first = b"\1" + bench.address(OWN)
    pairs = [("", b"\0d\0d\0"), ("rsna=1", b"\1d\0d\0"), ("timeouts=7,9", b"\0\7\0\x09\0"),
             ("edition=1", b"\0d\0d\0\1\0"), ("edition=2", b"\0d\0d\0\2\0"),
             ("protection=1", b"\0d\0d\0\1\1"), ("protection=255 edition=0", b"\0d\0d\0\0\xff"),
             ("query-retry=7", b"\0d\0d\0\1\0\7\0\xe8\3"),
             ("query-maximum=65535", b"\0d\0d\0\1\0\xc9\0\xff\xff"),
             ("query-maximum=0 query-retry=256 edition=2", b"\0d\0d\0\2\0\0\1\0\0"),
             (f"network={OTHER}", b"\0d\0d\0\1\0\xc9\0\xe8\3" + bench.address(OTHER)),
             ("network=broadcast edition=2", b"\0d\0d\0\2\0\xc9\0\xe8\3" + bench.BROADCAST)]
    faults = []
    for words, rest in pairs:
        if inputs(lines_of(f"ap own={OWN} {words}\n")) != [(bench.record(bench.SETTINGS, first + rest), 0)]:
            faults.append(words)
    second = f"station own={PEER} edition=2\nclock 1\nframe deauth from=p\n"
    lines = lines_of(f"ap own={OWN}\nname p = {OTHER}\nclock 2\n{second}")
    heard = bench.frame(bench.management(bench.DEAUTHENTICATION, PEER, OTHER, b"\3\0", third=OTHER))
    wanted = [(bench.settings(1, OWN) + bench.clock(2), 1),
              (bench.settings(2, PEER, edition=2) + bench.clock(1) + heard, 2)]
    return faults + ([] if inputs(lines) == wanted else ["two settings lines"])


def links_as_laid_out():
    """A list of links: one by one, as a range, of more than a device can have, and of none."""
    first = f"ap own={OWN}\nname r-1..6 = 02:00:00:00:00:f0"
    r = [bench.address(f"02:00:00:00:00:f{n}") for n in range(6)]
    pairs = [("r-1", r[:1]), ("r-2 r-1", r[1::-1]), ("r-1..4", r[:4]), (f"r-1..2 {OTHER}", r[:2] + [OTHER]),
             ("r-1..6", r), ("own", [OWN]), ("none", [])]
    faults = []
    for words, wanted in pairs:
        made = lines_of(f"{first}\nlinks {PEER} {words}\n")[2].events
        laid = bytes((len(wanted),)) + b"".join(bench.address(link) for link in wanted)
        if [made_.record for made_ in made] != [bench.record(4, bench.address(PEER) + laid)]:
            faults.append(words)
    return faults


def primitives_by_word_and_number():
    """A primitive by its word is the one by its number, with the code by either name."""
    faults = []
    for at, (word, code) in enumerate(PRIMITIVES, 1):
        wanted = bench.primitive(at, PEER, 1)
        for line in (f"prim {word} {PEER} {code}=1", f"prim {at} {PEER} {code}=1",
                     f"prim {word} {PEER} code=1"):
            if event(line).record != wanted:
                faults.append(line)
    return faults + ([] if len(PRIMITIVES) == len(primitives.TABLE) else ["more primitives"])
