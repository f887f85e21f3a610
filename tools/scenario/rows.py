"""The rows of a table as the bench program shows them, and the records that they are."""

import collections
import functools
import re

# The query is 0 none, 1 running, 2 running with its request due, 3 timed out; the links are addresses.
Record = collections.namedtuple("Record", "place address state exchange left hold identifier query "
                                "query_left links", defaults=(0, 0, 0, ()))
LEFT, HOLD, QUERY_LEFT = SIGNS = "\x01", "\x02", "\x03"
# The sign for the time in a refusal.
WAIT = "\x04"

PLACE = re.compile(r"(\d{1,2}) ([0-9a-f]{12}) \d{1,2} \d{1,2}")
LINKS = re.compile(r"  links (\d+)((?: [0-9a-f]{12}){1,4})")
QUERY = re.compile(r"(  query (\d+) \d{1,5} \d{1,2}) (\d{1,20})")
# So many of them a time has at most.
DIGITS = 20
MOST_KEPT = 4096


class BenchFault(Exception):
    """The bench program could not be run, or printed what it never should."""


def odd(line):
    return BenchFault(f"the bench program printed '{line}', which is no line of its changes")


class Shape:
    """A row but for its hold: words that are told of its mark serve for all of its times. The text is what stands behind 'place', in
    the parts before and behind the hold, or whole where there is none; the mark is this text with a sign in place of each time that
    runs down, and the times are these signs with what they stand for, but for the hold. A row is its shape with the hold's digits."""

    __slots__ = "place", "address", "text", "mark", "times", "links"

    def __init__(self, place, address, text, mark, times, links=()):
        self.place, self.address, self.text, self.mark, self.times, self.links = place, address, text, mark, times, links


NO_ROW = Shape(0, None, (), "", ()), "0"


@functools.lru_cache(MOST_KEPT)
def _begun(start):
    """The shapes of a row of one line whose text this is but for the hold: with one, and without; none where it is no row."""
    placed, _, left = start.rpartition(" ")
    found = PLACE.fullmatch(placed)
    if not found or not left.isdecimal() or len(left) > DIGITS:
        return ()
    times, mark = ((), f"{placed} 0") if left == "0" else (((LEFT, left),), f"{placed} {LEFT}")
    place, address = int(found[1]), bytes.fromhex(found[2])
    return (Shape(place, address, (f"{start} ", ""), f"{mark} {HOLD}", times),
            Shape(place, address, (f"{start} 0",), f"{mark} 0", times))


def row(text):
    """A row of its lines, behind 'place': its own, then those of its links and of its query, if any."""
    if "\n" in text:
        return _longer(text)
    start, _, hold = text.rpartition(" ")
    shapes = _begun(start)
    if not shapes or not hold.isdecimal() or len(hold) > DIGITS:
        raise odd(f"  place {text}")
    return shapes[hold == "0"], hold


@functools.lru_cache(MOST_KEPT)
def _longer(text):
    """A row with further lines."""
    first, *lines = text.split("\n")
    shape, hold = row(first)
    mark, times, links = shape.mark, shape.times, ()
    for line in lines:
        named, query = LINKS.fullmatch(line), QUERY.fullmatch(line)
        if str(shape.place) != (named[1] if named else query and query[2]):
            raise odd(line)
        if named:
            mark, links = f"{mark}\n{line}", tuple(map(bytes.fromhex, named[2].split()))
        else:
            mark, times = f"{mark}\n{query[1]} {QUERY_LEFT}", (*times, (QUERY_LEFT, query[3]))
    parts = (*shape.text[:-1], shape.text[-1] + text[len(first):])
    return Shape(shape.place, shape.address, parts, mark, times, links), hold


def _number(text):
    return text if text in SIGNS else int(text)


@functools.lru_cache(MOST_KEPT)
def record(text):
    """The record of a row's text, or of its mark: there a time is the sign that stands for it."""
    first, *rest = text.split("\n")
    place, address, *numbers = first.split(" ")
    made = Record(int(place), bytes.fromhex(address), *map(_number, numbers))
    for line in rest:
        _, _, what, _, *values = line.split(" ")
        made = made._replace(links=tuple(map(bytes.fromhex, values))) if what == "links" else made._replace(
            **dict(zip(("identifier", "query", "query_left"), map(_number, values))))
    return made


def records(rows):
    """The table of some rows: their records by address, in no order."""
    return {shape.address: record(hold.join(shape.text)) for shape, hold in rows.values()}


def paired(shown):
    """Of the rows that places had and have now, each that is new beside the one that its device had, by place; NO_ROW where
    there is none."""
    if len(shown) == 1 and (shown[0][0][0].address == shown[0][1][0].address or NO_ROW in shown[0]):
        return shown
    gone = {old[0].address: old for old, _ in shown if old is not NO_ROW}
    made = [(gone.pop(new[0].address, NO_ROW), new) for _, new in shown if new is not NO_ROW]
    made += [(old, NO_ROW) for old in gone.values()]
    return sorted(made, key=lambda pair: (pair[0] if pair[1] is NO_ROW else pair[1])[0].place)


def after(rows, changed):
    """Rows by the addresses of their devices and of the links, with some changed."""
    rows = rows.copy()
    for (old, _), new in changed:
        for address in old.links:
            rows.pop(address, None)
        if new is NO_ROW:
            rows.pop(old.address, None)
    for _, new in changed:
        if new is not NO_ROW:
            for address in (new[0].address, *new[0].links):
                rows[address] = new
    return rows
