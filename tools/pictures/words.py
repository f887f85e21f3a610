"""What the message charts say of a frame, a primitive, a notice and a refusal."""

NAMES = {0: "Association request", 1: "Association response", 10: "Disassociation",
         11: "Authentication", 12: "Deauthentication"}
PRIMITIVES = {1: "AUTHENTICATE.request", 2: "AUTHENTICATE.response, status {}",
              4: "ASSOCIATE.request", 7: "ASSOCIATE.response, status {}",
              10: "transmit report, {}", 11: "SA-QUERY.request", 12: "links of the tablet, {}"}
REPORTS = ("not acknowledged", "acknowledged")
NOTICES = {1: "AUTHENTICATE.indication", 2: "AUTHENTICATE.confirm, status {}",
           5: "ASSOCIATE.indication", 6: "ASSOCIATE.confirm, status {}"}
REFUSALS = {7: "refused 7: no matching exchange", 8: "refused 8: the hold runs",
            9: "refused 9: an exchange is under way"}


QUERIES = {1: "query sent", 2: "query due", 3: "query timed out"}
ACTIONS = ("SA Query request", "SA Query response")


def field(octets, at, count=2):
    return int.from_bytes(octets[at:at + count], "little")


def comeback(octets):
    """The words for a Timeout Interval that is the first element of a response, if it is there."""
    if octets[30:33] == b"\x38\x05\x03":
        return f", comeback {field(octets, 33, 4)} TU"
    return ""


def frame_words(octets):
    kind, subtype = octets[0] >> 2 & 3, octets[0] >> 4
    if kind:
        return {(1, 13): "ACK, by the radio", (2, 0): "Data"}[kind, subtype]
    if subtype == 13:
        return f"{ACTIONS[octets[25]]}, identifier {field(octets, 26)}"
    name = NAMES[subtype]
    if subtype == 11:
        transaction, status = field(octets, 26), field(octets, 28)
        answer = f", status {status}" if transaction == 2 else ""
        return f"{name}, transaction {transaction}{answer}"
    if subtype == 1:
        status, aid = field(octets, 26), field(octets, 28) % 16384
        return f"{name}, status {status}" + (f", AID {aid}" if status == 0 else comeback(octets))
    return f"{name}, reason {field(octets, 24)}" if subtype in (10, 12) else name


def primitive_words(which, code):
    return PRIMITIVES[which].format(REPORTS[code] if which == 10 else code)


def notice_words(notice, code):
    return NOTICES[notice].format(code)
