"""Bench records and 802.11 frames as bytes: the one place where scenarios and tests lay out input.

Addresses are given as text ('02:00:00:00:00:0a'), as six octets, or as a number whose
lowest octet is the first one sent. Every number in a record or frame is little-endian.
Nothing here checks a rule: a caller may ask for any field value that fits its octets.
"""

MARK = b"\x0b\x03"
HEAD = 5  # octets of a record before its body: mark, kind, length
SETTINGS, PRIMITIVE, FRAME, CLOCK, LINKS = 0, 1, 2, 3, 4
ACCESS_POINT, STATION, AD_HOC = 1, 2, 3

MANAGEMENT, CONTROL, DATA, EXTENSION = 0, 1, 2, 3
ASSOCIATION_REQUEST, ASSOCIATION_RESPONSE = 0, 1
REASSOCIATION_REQUEST, REASSOCIATION_RESPONSE = 2, 3
DISASSOCIATION, AUTHENTICATION, DEAUTHENTICATION = 10, 11, 12
ACTION, ACTION_NO_ACK = 13, 14
PS_POLL, RTS, CTS, ACK = 10, 11, 12, 13

# The categories of a Public Action and of SA Query with its two actions, and the Protected bit in the
# second octet of Frame Control.
PUBLIC = 4
SA_QUERY = 8
QUERY_REQUEST, QUERY_RESPONSE = 0, 1
PROTECTED = 0x40
TIMEOUT_INTERVAL = 56
COMEBACK = 3
LONGEST_FRAME = 4096
BROADCAST = b"\xff" * 6
ZERO = bytes(6)

# The fixed fields of a management body in the order of the air, each with its octets. What
# follows them, mostly elements, is the rest; of other bodies nothing is fixed here.
_RESPONSE = (("capability", 2), ("status", 2), ("aid", 2))
BODIES = {
    ASSOCIATION_REQUEST: (("capability", 2), ("listen_interval", 2)),
    ASSOCIATION_RESPONSE: _RESPONSE,
    REASSOCIATION_REQUEST: (("capability", 2), ("listen_interval", 2), ("current_ap", 6)),
    REASSOCIATION_RESPONSE: _RESPONSE,
    DISASSOCIATION: (("reason", 2),),
    AUTHENTICATION: (("algorithm", 2), ("transaction", 2), ("status", 2)),
    DEAUTHENTICATION: (("reason", 2),),
}


def address(given):
    """Six octets from text, a number, or six octets."""
    if isinstance(given, bytes):
        if len(given) != 6:
            raise ValueError(f"an address has six octets, not {len(given)}")
        return given
    if isinstance(given, int):
        return given.to_bytes(6, "little")
    octets = bytes(int(part, 16) for part in given.split(":"))
    return address(octets)


def address_text(octets):
    """The text form of six octets."""
    return ":".join(f"{octet:02x}" for octet in octets)


def number(value, octets=2):
    """A little-endian field."""
    return value.to_bytes(octets, "little")


# Bench records

def record(kind, body, length=None, mark=MARK):
    """Any record; length and mark may be given wrong on purpose."""
    return mark + bytes((kind,)) + number(len(body) if length is None else length) + body


# What settings mean that do not say it: edition, protection, a query's retry and maximum times in TU,
# the network's address.
USUAL_RULE = (1, 0, 201, 1000, ZERO)


def settings(role, own, rsna=0, authentication_timeout=100, association_timeout=100, edition=None,
             protection=None, query_retry=None, query_maximum=None, network=None):
    """A record of 12 octets; of 14 where an edition or a protection flag is given, of 18 where a
    query's retry or maximum time is, of 24 where a network's address is. What is not given then is
    what the shorter record means."""
    rule = edition, protection, query_retry, query_maximum, network
    values = [usual if value is None else value for value, usual in zip(rule, USUAL_RULE)]
    body_ = bytes((role,)) + address(own) + bytes((rsna,))
    body_ += number(authentication_timeout) + number(association_timeout)
    tails = ((rule, bytes(values[:2])), (rule[2:], number(values[2]) + number(values[3])),
             (rule[4:], address(values[4])))
    for given, tail in tails:
        if any(value is not None for value in given):
            body_ += tail
    return record(SETTINGS, body_)


def primitive(which, peer, code=0):
    return record(PRIMITIVE, bytes((which,)) + address(peer) + number(code))


def frame(octets):
    return record(FRAME, octets)


def clock(step):
    return record(CLOCK, number(step))


def links(device, addresses):
    """Primitive 12, which names the links of a device."""
    laid = address(device) + bytes((len(addresses),)) + b"".join(address(one) for one in addresses)
    return record(LINKS, laid)


# Elements

def element(identifier, contents=b"", length=None):
    """One element; a length other than that of the contents makes it odd or cut."""
    return bytes((identifier, len(contents) if length is None else length)) + contents


def timeout_interval(value, kind=COMEBACK):
    return element(TIMEOUT_INTERVAL, bytes((kind,)) + number(value, 4))


# Frames: the receiver is Address 1, the sender Address 2

def frame_control(kind, subtype, version=0, to_ds=0, from_ds=0, flags=0):
    """Flags are the second octet's bits above To DS and From DS, already in their places."""
    return bytes((version | kind << 2 | subtype << 4, to_ds | from_ds << 1 | flags))


def control(subtype, receiver, sender=None, duration=0, version=0):
    """A control frame; CTS and ACK have no sender."""
    return control_header(frame_control(CONTROL, subtype, version), receiver, sender, duration)


def control_header(control_octets, receiver, sender=None, duration=0):
    """The octets of a control frame up to its last address."""
    octets = control_octets + number(duration) + address(receiver)
    return octets if sender is None else octets + address(sender)


def header(control_octets, receiver, sender, third=None, duration=0, sequence=0):
    """The 24 octets of a management or data frame; Address 3 is the receiver if not given."""
    receiver = address(receiver)
    third = receiver if third is None else address(third)
    return control_octets + number(duration) + receiver + address(sender) + third + number(sequence)


def body(subtype, fields, rest=b""):
    """A management body: its fixed fields, taken by name, and what follows them."""
    laid = (address(fields[name]) if octets == 6 else number(fields[name], octets)
            for name, octets in BODIES[subtype])
    return b"".join(laid) + rest


def management(subtype, receiver, sender, octets=b"", third=None, version=0):
    return header(frame_control(MANAGEMENT, subtype, version), receiver, sender, third) + octets


def data(receiver, sender, octets=b"", subtype=0, to_ds=1, from_ds=0, version=0):
    control_octets = frame_control(DATA, subtype, version, to_ds, from_ds)
    return header(control_octets, receiver, sender) + octets


def authentication(receiver, sender, transaction=1, status=0, algorithm=0, rest=b""):
    fields = dict(algorithm=algorithm, transaction=transaction, status=status)
    return management(AUTHENTICATION, receiver, sender, body(AUTHENTICATION, fields, rest))


def association_request(receiver, sender, capability=1, listen_interval=10, elements=b""):
    fields = dict(capability=capability, listen_interval=listen_interval)
    octets = body(ASSOCIATION_REQUEST, fields, elements)
    return management(ASSOCIATION_REQUEST, receiver, sender, octets)


def reassociation_request(receiver, sender, current_ap, capability=1, listen_interval=10,
                          elements=b""):
    fields = dict(capability=capability, listen_interval=listen_interval, current_ap=current_ap)
    octets = body(REASSOCIATION_REQUEST, fields, elements)
    return management(REASSOCIATION_REQUEST, receiver, sender, octets)


def _response(subtype, receiver, sender, status, aid, capability, elements):
    octets = body(subtype, dict(capability=capability, status=status, aid=aid), elements)
    return management(subtype, receiver, sender, octets, third=sender)


def association_response(receiver, sender, status=0, aid=0xC001, capability=1, elements=b""):
    return _response(ASSOCIATION_RESPONSE, receiver, sender, status, aid, capability, elements)


def reassociation_response(receiver, sender, status=0, aid=0xC001, capability=1, elements=b""):
    return _response(REASSOCIATION_RESPONSE, receiver, sender, status, aid, capability, elements)


def deauthentication(receiver, sender, reason=3, rest=b""):
    octets = body(DEAUTHENTICATION, dict(reason=reason), rest)
    return management(DEAUTHENTICATION, receiver, sender, octets)


def disassociation(receiver, sender, reason=8, rest=b""):
    octets = body(DISASSOCIATION, dict(reason=reason), rest)
    return management(DISASSOCIATION, receiver, sender, octets)


def action(receiver, sender, octets=b"", subtype=ACTION, flags=0, version=0):
    """An Action frame; the first of the octets behind the header, if any, is its category."""
    control_octets = frame_control(MANAGEMENT, subtype, version, flags=flags)
    return header(control_octets, receiver, sender) + octets


def sa_query(receiver, sender, what, identifier, length=None, **given):
    """An SA Query frame: category 8, its action, and the identifier; cut, or filled with 00, to a
    length where one is given."""
    octets = action(receiver, sender, bytes((SA_QUERY, what)) + number(identifier), **given)
    return octets if length is None else octets[:length].ljust(length, b"\0")


def any_frame(kind, subtype, receiver, sender, length, fill=b"\0", version=0, ds=0, flags=0):
    """A frame of any type, subtype and length: the usual header, then the fill over and over,
    all cut to the length. ds holds To DS in bit 0 and From DS in bit 1."""
    octets = frame_control(kind, subtype, version, ds & 1, ds >> 1, flags)
    octets = header(octets, receiver, sender)
    short = length - len(octets)
    if short > 0:
        octets += fill * (short // len(fill) + 1)
    return octets[:length]
