"""pcap captures as octets: a file header of 24, then each packet behind a header of 16.

Every field may be given wrong on purpose. The order is that of the file's numbers, 'little' or 'big'.
"""

NUMBER = 0xa1b2c3d4
LINK_TYPE = 105
FILE_HEADER, PACKET_HEADER = 24, 16


def number(value, order, octets=4):
    return value.to_bytes(octets, order)


def file_header(order="little", magic=NUMBER, link=LINK_TYPE, snap=65535):
    """The number, version 2.4, zone and accuracy 0, the longest capture, the link type."""
    return (number(magic, order) + number(2, order, 2) + number(4, order, 2) + bytes(8)
            + number(snap, order) + number(link, order))


def packet(seconds, microseconds, octets, order="little", captured=None, original=None):
    """A packet; the captured length is that of the octets, the original that of the captured."""
    captured = len(octets) if captured is None else captured
    original = captured if original is None else original
    fields = (seconds, microseconds, captured, original)
    return b"".join(number(field, order) for field in fields) + octets


def capture(packets, order="little", **header):
    """A whole file; a packet is a tuple or dict of what `packet` takes."""
    laid = (packet(**one, order=order) if isinstance(one, dict) else packet(*one, order=order)
            for one in packets)
    return file_header(order, **header) + b"".join(laid)
