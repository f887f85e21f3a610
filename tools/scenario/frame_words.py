"""The words for frames, for each type and subtype that has a class, with the fields they take."""

import collections
import functools

from tools import bench_input as bench

Word = collections.namedtuple("Word", "word type subtype class_ about")
Field = collections.namedtuple("Field", "name kind highest about")

_M, _C, _D = bench.MANAGEMENT, bench.CONTROL, bench.DATA

TABLE = [
    Word("assoc-request", _M, 0, 2, "Association Request"),
    Word("assoc-response", _M, 1, 2, "Association Response"),
    Word("reassoc-request", _M, 2, 2, "Reassociation Request"),
    Word("reassoc-response", _M, 3, 2, "Reassociation Response"),
    Word("probe-request", _M, 4, 1, "Probe Request"),
    Word("probe-response", _M, 5, 1, "Probe Response"),
    Word("beacon", _M, 8, 1, "Beacon"),
    Word("atim", _M, 9, 1, "ATIM"),
    Word("disassoc", _M, 10, 2, "Disassociation"),
    Word("auth-request", _M, 11, 1, "Authentication, transaction 1"),
    Word("auth-response", _M, 11, 1, "Authentication, transaction 2"),
    Word("deauth", _M, 12, 1, "Deauthentication"),
    Word("public-action", _M, 13, 1, "Action of category 4; class 3 where protected, flags=0x40"),
    Word("sa-query-request", _M, 13, 3, "Action of category 8, SA Query request"),
    Word("sa-query-response", _M, 13, 3, "Action of category 8, SA Query response"),
    Word("action", _M, 13, 3, "Action"),
    Word("action-no-ack", _M, 14, 3, "Action No Ack"),
    Word("block-ack-request", _C, 8, 3, "Block Ack Request"),
    Word("block-ack", _C, 9, 3, "Block Ack"),
    Word("ps-poll", _C, 10, 3, "PS-Poll"),
    Word("rts", _C, 11, 1, "RTS"),
    Word("cts", _C, 12, 1, "CTS, has no sender"),
    Word("ack", _C, 13, 1, "Ack, has no sender"),
    Word("cf-end", _C, 14, 1, "CF-End"),
    Word("cf-end-ack", _C, 15, 1, "CF-End +CF-Ack"),
    Word("data", _D, 0, 3, "Data"),
    Word("data-cf-ack", _D, 1, 3, "Data +CF-Ack"),
    Word("data-cf-poll", _D, 2, 3, "Data +CF-Poll"),
    Word("data-cf-ack-poll", _D, 3, 3, "Data +CF-Ack +CF-Poll"),
    Word("null", _D, 4, 3, "Null, no data"),
    Word("cf-ack", _D, 5, 3, "CF-Ack, no data"),
    Word("cf-poll", _D, 6, 3, "CF-Poll, no data"),
    Word("cf-ack-poll", _D, 7, 3, "CF-Ack +CF-Poll, no data"),
    Word("qos-data", _D, 8, 3, "QoS Data"),
    Word("qos-data-cf-ack", _D, 9, 3, "QoS Data +CF-Ack"),
    Word("qos-data-cf-poll", _D, 10, 3, "QoS Data +CF-Poll"),
    Word("qos-data-cf-ack-poll", _D, 11, 3, "QoS Data +CF-Ack +CF-Poll"),
    Word("qos-null", _D, 12, 3, "QoS Null, no data"),
    Word("qos-cf-poll", _D, 14, 3, "QoS CF-Poll, no data"),
    Word("qos-cf-ack-poll", _D, 15, 3, "QoS CF-Ack +CF-Poll, no data"),
]
BY_WORD = {row.word: row for row in TABLE}
BY_TYPE = {}
for _row in TABLE:
    BY_TYPE.setdefault((_row.type, _row.subtype), []).append(_row)
KNOWN = tuple(BY_WORD) + ("raw",)
# Said of a word that is near none of them.
FAMILIES = ("management (auth-request, assoc-request, deauth ..), control (rts, ack ..) and data (data, null ..): "
            "scenario --help frames lists them, scenario --help WORD explains one")
# The first octets of an Action's body that a word stands for; an SA Query's identifier follows them.
QUERIES = {"sa-query-request": bytes((bench.SA_QUERY, bench.QUERY_REQUEST)),
           "sa-query-response": bytes((bench.SA_QUERY, bench.QUERY_RESPONSE))}
HEADS = {"public-action": bytes((bench.PUBLIC,)), **QUERIES}

ALL_FIELDS = [
    Field("from", "address", 0, "the sender, Address 2"),
    Field("to", "address", 0, "the receiver, Address 1: our own if not given"),
    Field("third", "address", 0, "Address 3: the AP's, or the ad hoc network's, if not given"),
    Field("algorithm", "number", 0xFFFF, "authentication algorithm: 0, open, if not given"),
    Field("transaction", "number", 0xFFFF, "1 of a request and 2 of a response if not given"),
    Field("capability", "number", 0xFFFF, "0x0001, or 0x0011 where RSNA is required, if not given"),
    Field("listen-interval", "number", 0xFFFF, "10 if not given"),
    Field("current-ap", "address", 0, "the AP that the sender comes from"),
    Field("status", "number", 0xFFFF, "0 if not given"),
    Field("aid", "number", 0x3FFF, "without the two top bits: 1 if not given, 0 where status is not 0"),
    Field("aid-field", "number", 0xFFFF, "the AID's field with all 16 bits, in place of aid"),
    Field("reason", "number", 0xFFFF, "3 of a deauth and 8 of a disassoc if not given"),
    Field("comeback", "number", 0xFFFFFFFF, "Timeout Interval element, type 3, with this time in TU"),
    Field("elements", "octets", 0, "further octets behind the fixed fields: 38050300 is a cut element"),
    Field("category", "number", 0xFF, "the first octet of an Action's body: none if not given"),
    Field("id", "number", 0xFFFF, "the identifier of an SA Query: 1, a record's first, if not given"),
    Field("body", "octets", 0, "the octets behind the header, the category or the id, hexadecimal"),
    Field("to-ds", "number", 1, "1 of a data frame to an AP, else 0, if not given"),
    Field("from-ds", "number", 1, "1 of a data frame to a station, else 0, if not given"),
    Field("version", "number", 3, "0 if not given"),
    Field("flags", "number", 0xFC, "second octet of Frame Control: 0x40 is Protected; 0 if not given"),
    Field("duration", "number", 0xFFFF, "0 if not given"),
    Field("sequence", "number", 0xFFFF, "Sequence Control: 0 if not given"),
    Field("length", "number", bench.LONGEST_FRAME, "the frame cut, or filled with 00, to so many octets"),
]
FIELDS = {field.name: field for field in ALL_FIELDS}
# What every frame can be given, and what every one but a control frame can.
RARE = ("version", "flags", "to-ds", "from-ds", "duration", "length")
RARE_BESIDE_CONTROL = ("third", "sequence")


@functools.lru_cache(None)
def has_sender(row):
    return (row.type, row.subtype) not in ((_C, bench.CTS), (_C, bench.ACK))


@functools.lru_cache(None)
def fixed(row):
    """The fields of the frame's body, by the names of a scenario."""
    laid = bench.BODIES.get(row.subtype, ()) if row.type == _M else ()
    return [name.replace("_", "-") for name, _ in laid]


@functools.lru_cache(None)
def own_fields(row):
    """What this frame can be given, apart from the fields that every frame has."""
    names = ["from", "to"] if has_sender(row) else ["to"]
    body = fixed(row)
    if not body:
        first = ["category"] if row.word in ("action", "action-no-ack") else []
        return names + (["id"] if row.word in QUERIES else first) + ["body"]
    if "aid" in body:
        body = body + ["aid-field", "comeback"]
    return names + body + ["elements"]


@functools.lru_cache(None)
def fields_of(row):
    return own_fields(row) + list(RARE if row.type == _C else RARE + RARE_BESIDE_CONTROL)
