"""The numbers of the rules and of IEEE 802.11 in words."""

ROLES = {1: "AP", 2: "station", 3: "ad hoc"}
A_ROLE = {1: "an AP", 2: "a station", 3: "an ad hoc network"}
STATES = {1: "not authenticated", 2: "authenticated", 3: "associated, RSNA not yet established",
          4: "associated"}
KINDS = {1: "authentication", 2: "association", 3: "reassociation"}
# What a clock step reports, by kind.
REPORTS = {**{kind: f"timed out: {name}" for kind, name in KINDS.items()},
           4: "retry reached: SA Query", 5: "timed out: SA Query"}

# A notice's name, and the name of its code where it has one.
NOTICES = {
    1: ("AUTHENTICATE.indication", None), 2: ("AUTHENTICATE.confirm", "status"),
    3: ("DEAUTHENTICATE.indication", "reason"), 4: ("DEAUTHENTICATE.confirm", "reason"),
    5: ("ASSOCIATE.indication", None), 6: ("ASSOCIATE.confirm", "status"),
    7: ("REASSOCIATE.indication", None), 8: ("REASSOCIATE.confirm", "status"),
    9: ("DISASSOCIATE.indication", "reason"), 10: ("DISASSOCIATE.confirm", "reason"),
}

STATUS = {
    0: "success", 1: "unspecified failure", 10: "can't support all requested capabilities",
    11: "reassociation denied, association can't be confirmed",
    12: "denied for a reason outside the standard",
    13: "authentication algorithm not supported", 14: "transaction number out of sequence",
    15: "challenge failure", 16: "timeout waiting for the next frame",
    17: "AP can't take more stations", 18: "basic rates not supported",
    30: "rejected for now, try again later", 31: "robust management frame policy violation",
    34: "poor channel conditions", 37: "request declined",
}

REASON = {
    1: "unspecified", 2: "authentication no longer valid", 3: "sender is leaving or has left",
    4: "inactivity", 5: "AP can't take all its stations",
    6: "class 2 frame from a peer that is not authenticated",
    7: "class 3 frame from a peer that is not associated",
    8: "sender is leaving the network", 9: "asked to associate before authentication",
    10: "power capability not acceptable", 11: "supported channels not acceptable",
    13: "invalid element", 14: "message integrity check failure", 15: "4-way handshake timeout",
    16: "group key handshake timeout", 23: "802.1X authentication failed",
}

# What a refusal means, by kind of event where that makes a difference.
REFUSALS = {
    1: "the output buffer is too short",
    2: "the settings are not well formed",
    4: "Address 1 is neither our own nor a group address",
    6: "a new record is needed and no place is free",
    8: "the hold on this peer is not over",
    9: "an exchange is already under way",
}
REFUSAL_3 = {
    "frame": "too short, Address 2 is invalid or our own, or a response whose elements do not end "
             "with it",
    "prim": "unknown primitive, peer address invalid, our own or a link's, or code not allowed",
    "links": "over four links, or an address that is invalid, our own, given twice or in use elsewhere",
    "clock": "a clock step is at least 1 TU",
}
REFUSAL_7 = {
    2: "the peer has not asked for authentication",
    4: "we are associated with another AP: reassociate instead",
    7: "the peer has not asked for association",
    8: "the peer has not asked for reassociation",
    9: "the peer is not in State 3 or 4",
    10: "no response to this peer awaits its acknowledgement",
    11: "no SA Query request to this peer is due",
    12: "the device is not in State 1",
}
# All of them, as --help lists them.
ALL_REFUSALS = {
    1: "output buffer under 37 octets, 256 for a clock step: never so on the bench",
    2: "settings out of range",
    3: "what can't be meant: an argument or a frame that is not as it must be",
    4: REFUSALS[4], 5: "a primitive that is not for this role", 6: REFUSALS[6],
    7: "the primitive finds no matching exchange or state",
    8: REFUSALS[8], 9: REFUSALS[9],
}


def coded(name, code):
    """A status or reason with its meaning, as far as it has one here."""
    meaning = {"status": STATUS, "reason": REASON}[name].get(code)
    return f"{name} {code} ({meaning})" if meaning else f"{name} {code}"


def refusal(number, kind, primitive, role):
    """What a refusal of an event means; the primitive's number is 0 for other events."""
    if number == 3:
        return REFUSAL_3[kind]
    if number == 5:
        return f"this primitive is not for {A_ROLE[role]}"
    if number == 7:
        return REFUSAL_7.get(primitive, "no matching exchange or state")
    return REFUSALS.get(number, "a refusal that the rules do not list")
