"""Frames from words and words from frames; the octets are laid out by bench_input."""

import functools

from tools import bench_input as bench

from . import frame_words
from .values import Fault

# The second octet of Frame Control: To DS and From DS, and what is above them.
DS_BITS, FLAG_BITS = 0x03, 0xFC
# The two top bits that an AID has on the air.
AID_MARK = 0xC000
COMEBACK_HEAD = bytes((bench.TIMEOUT_INTERVAL, 5, bench.COMEBACK))
# Data subtypes with this bit have a QoS Control field of two octets behind the header.
QOS = 8
# So many frames that were read are kept: a table sends the same ones again and again.
MOST_KEPT = 1024


def default(row, settings, given):
    """The values of the fields that a line leaves out; 0 where it is not named here."""
    own = settings.own
    third = {bench.ACCESS_POINT: own, bench.AD_HOC: settings.network or bench.ZERO}
    values = {"to": own, "third": third.get(settings.role, given.get("from", own)),
              "capability": 0x0011 if settings.rsna == 1 else 0x0001, "listen-interval": 10,
              "transaction": 1 if row.word == "auth-request" else 2,
              "aid": 0 if given.get("status") else 1,
              "reason": 8 if row.word == "disassoc" else 3, "id": 1,
              "elements": b"", "body": b"", "comeback": None, "aid-field": None, "category": None,
              "length": None}
    if row.type == bench.DATA:
        values["to-ds"] = int(settings.role == bench.ACCESS_POINT)
        values["from-ds"] = int(settings.role == bench.STATION)
        values["body"] = b"\0\0" if row.subtype & QOS else b""
    return values


def filled(row, given, settings):
    """Every field of the frame: those given, and the usual ones."""
    names = frame_words.fields_of(row)
    for name in ("from", "current-ap"):
        if name in names and name not in given:
            raise Fault(f"{row.word} needs {name}=ADDRESS")
    if "aid" in given and "aid-field" in given:
        raise Fault("aid and aid-field are one field: give one of them")
    if given.get("flags", 0) & DS_BITS:
        raise Fault("flags: the two lowest bits are to-ds and from-ds: give those by name")
    left_out = default(row, settings, given)
    return {name: given[name] if name in given else left_out.get(name, 0) for name in names}


def _aid_field(fields):
    """The AID as it is on the air: two top bits set, but all bits clear for AID 0."""
    if fields.get("aid-field") is not None:
        return fields["aid-field"]
    return fields["aid"] and fields["aid"] | AID_MARK


def _body(row, fields):
    if "body" in fields:
        category = fields.get("category")
        head = frame_words.HEADS.get(row.word, b"" if category is None else bytes((category,)))
        return head + (bench.number(fields["id"]) if "id" in fields else b"") + fields["body"]
    laid = {name.replace("-", "_"): fields.get(name) for name in frame_words.fixed(row)}
    rest = fields["elements"]
    if "aid" in laid:
        laid["aid"] = _aid_field(fields)
        if fields.get("comeback") is not None:
            rest = bench.timeout_interval(fields["comeback"]) + rest
    return bench.body(row.subtype, laid, rest)


def encode(row, fields):
    """The octets of a frame, all of whose fields are given."""
    head = bench.frame_control(row.type, row.subtype, fields["version"], fields["to-ds"],
                               fields["from-ds"], fields["flags"])
    if row.type == bench.CONTROL:
        octets = bench.control_header(head, fields["to"], fields.get("from"), fields["duration"])
    else:
        octets = bench.header(head, fields["to"], fields["from"], fields["third"],
                              fields["duration"], fields["sequence"])
    octets += _body(row, fields)
    length = fields.get("length")
    if length is not None:
        octets = octets[:length] + bytes(max(0, length - len(octets)))
    if len(octets) > bench.LONGEST_FRAME:
        raise Fault(f"the frame has {len(octets)} octets: at most {bench.LONGEST_FRAME} can be given")
    return octets


def word_of(octets):
    """The row of the frame's type and subtype; None where it has no class. Where rows share them, the
    first that the octets fit: transaction 1, or an Action's first octets; the last fits all."""
    if len(octets) < 2:
        return None
    rows = frame_words.BY_TYPE.get((octets[0] >> 2 & 3, octets[0] >> 4), ())
    return next((row for row in rows if row is rows[-1] or _fits(row, octets)), None)


def _fits(row, octets):
    """Whether a row that shares its type and subtype with others is the one for these octets."""
    if row.word == "auth-request":
        return octets[26:28] == bench.number(1)
    head = frame_words.HEADS[row.word]
    whole = len(octets) >= 28 if row.word in frame_words.QUERIES else True
    return whole and octets[24:24 + len(head)] == head


def names_peer(octets):
    """Whether the rules look at the sender: version 0, a class, and neither CTS nor ACK."""
    row = word_of(octets)
    return row is not None and octets[0] & 3 == 0 and frame_words.has_sender(row) and len(octets) >= 16


def _split_body(row, rest):
    """The fields of a body; None where it is too short for them."""
    if row.word in frame_words.QUERIES:
        return {"id": int.from_bytes(rest[2:4], "little"), "body": rest[4:]}
    if row.word == "public-action":
        return {"body": rest[1:]}
    if "category" in frame_words.fields_of(row):
        return {"category": rest[0] if rest else None, "body": rest[1:]}
    if not frame_words.fixed(row):
        return {"body": rest}
    fields = {}
    for name, octets in bench.BODIES[row.subtype]:
        part, rest = rest[:octets], rest[octets:]
        if len(part) < octets:
            return None
        fields[name.replace("_", "-")] = part if octets == 6 else int.from_bytes(part, "little")
    if "aid" in fields:
        field = fields.pop("aid")
        plain = field == 0 or field > AID_MARK
        fields.update({"aid": field & ~AID_MARK} if plain else {"aid-field": field})
        if rest[:3] == COMEBACK_HEAD and len(rest) >= 7:
            fields["comeback"], rest = int.from_bytes(rest[3:7], "little"), rest[7:]
    fields["elements"] = rest
    return fields


@functools.lru_cache(MOST_KEPT)
def decode(octets):
    """The word of a frame and its fields, to be read alone; None where no word writes exactly these octets."""
    row = word_of(octets)
    if row is None:
        return None
    sender, third = octets[10:16], octets[16:22]
    fields = {"version": octets[0] & 3, "to-ds": octets[1] & 1, "from-ds": octets[1] >> 1 & 1,
              "flags": octets[1] & FLAG_BITS, "duration": int.from_bytes(octets[2:4], "little"),
              "to": octets[4:10]}
    head = 16 if frame_words.has_sender(row) else 10
    if row.type != bench.CONTROL:
        fields.update({"third": third, "sequence": int.from_bytes(octets[22:24], "little")})
        head = 24
    if head > 10:
        fields["from"] = sender
    body = _split_body(row, octets[head:]) if len(octets) >= head else None
    if body is None:
        return None
    fields.update(body)
    return row, fields
