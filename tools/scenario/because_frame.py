"""What there is to say of a frame that was refused for its form, or that was let in and did nothing."""

from tools import bench_input as bench

from . import frame_words, frames
from .answers import device

LEAST = {bench.AUTHENTICATION: 30, bench.ASSOCIATION_REQUEST: 28, bench.REASSOCIATION_REQUEST: 34,
         bench.ASSOCIATION_RESPONSE: 30, bench.REASSOCIATION_RESPONSE: 30, bench.DEAUTHENTICATION: 26,
         bench.DISASSOCIATION: 26}
HEADER, CONTROL_LEAST, SHORTEST, QUERY_LEAST = 24, 16, 10, 28
HIGHEST_AID = 2007
TYPES = {0: "management", 1: "control", 2: "data", 3: "extension"}
JOINS = {"assoc-response": (8, "association"), "reassoc-response": (9, "reassociation")}


def invalid(address):
    """No peer's address: a group's, or all zero."""
    return bool(address[0] & 1) or not any(address)


def single(address):
    return "a group address" if address[0] & 1 else "all zero" if not any(address) else "no single peer's"


def shown(octets):
    return f"type {octets[0] >> 2 & 3} ({TYPES[octets[0] >> 2 & 3]}), subtype {octets[0] >> 4}"


def least(octets):
    """The least length of a frame's kind."""
    type_, subtype = octets[0] >> 2 & 3, octets[0] >> 4
    if type_ == bench.CONTROL:
        return SHORTEST if subtype in (bench.CTS, bench.ACK) else CONTROL_LEAST
    return LEAST.get(subtype, HEADER) if type_ == bench.MANAGEMENT else HEADER


def length_words(octets, length, settings, say):
    """Why a frame is not as it must be: its length, its sender or its elements."""
    if length < SHORTEST:
        return f"{length} octets are no frame: the shortest has {SHORTEST}"
    if length < least(octets):
        row = frames.word_of(octets)
        name = row.about.partition(",")[0] if row else "such a frame"
        return f"it has {length} octets, and {name} has at least {least(octets)}"
    sender = octets[10:16]
    if invalid(sender):
        return f"Address 2 is {say(sender)}, {single(sender)}"
    if sender == settings.own:
        return "Address 2 is our own address"
    return f"its elements do not end with the frame, at {length} octets"


def _response(word, fields, record, peer):
    """Why the answer to a request to join did nothing at a station."""
    exchange, name = JOINS[word]
    if record is None or record.exchange != exchange:
        return f"no {name} with {peer} is under way"
    aid = fields.get("aid", fields.get("aid-field", 0)) & 0x3FFF
    return f"AID {aid} is outside 1 to {HIGHEST_AID}"


def _authentication(fields, record, settings, peer):
    asks, answers = settings.role != bench.ACCESS_POINT, settings.role != bench.STATION
    if fields["transaction"] == 1:
        return "such a request is for an AP" if not answers else ""
    if fields["transaction"] != 2 or not asks:
        return f"transaction {fields['transaction']} answers nothing here"
    if record is None or record.exchange != 7:
        return f"no authentication with {peer} is under way"
    return f"its algorithm is {fields['algorithm']}, and ours is 0" if fields["algorithm"] else ""


def _query(word, fields, record, octets, own, peer):
    if octets[4:10] != own:
        return "a query is sent to our own address alone"
    if record is None or record.state != 4:
        return f"{peer} is in State {record.state if record else 1}, and a query counts in State 4"
    if word == "sa-query-response" and record.query not in (1, 2):
        return f"no query to {peer} runs"
    if word == "sa-query-response":
        return f"its identifier is {fields['id']}, and that of the query is {record.identifier}"
    return ""


def nothing(event, before, settings, say):
    """Why a frame that was let in has nothing to do."""
    found = frames.decode(event.frame)
    if found is None or not event.peer:
        return "it names no peer" if not event.peer else "it asks nothing of the table"
    row, fields = found
    record, peer = before.get(device(event.peer, before)), say(event.peer)
    state = record.state if record else 1
    said = ""
    if row.word in ("deauth", "disassoc"):
        said = f"{peer} is in State {state}, so there is nothing to end"
    elif row.word in ("assoc-request", "reassoc-request"):
        said = "such a request is for an AP"
    elif row.word in JOINS:
        said = "such an answer is for a station" if settings.role != bench.STATION else _response(row.word, fields, record, peer)
    elif row.word in ("auth-request", "auth-response"):
        said = _authentication(fields, record, settings, peer)
    elif row.word in frame_words.QUERIES and len(event.frame) >= QUERY_LEAST:
        said = _query(row.word, fields, record, event.frame, settings.own, peer)
    return said or f"{row.about.partition(';')[0].partition(',')[0]} asks nothing of the table"
