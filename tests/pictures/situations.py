"""Every situation that a table can come to with two peers, and every move of a state on the way.

A situation is what the two records hold: state, exchange, whether a hold runs, the query, and whether
there are links. From the empty table each event of the alphabet is tried in each situation found so far,
until none is new. The program alone says what comes of an event: it shows the places that changed.
"""

import collections
import functools
import re
import subprocess

from tools import bench_input as bench

from .alphabet import (LONGEST_STEP, NETWORK, OTHER, OWN, PEER, QUERY_MAXIMUM, QUERY_RETRY, TIMEOUT,
                       by_links, clocks, events, lists)

PLACE = re.compile(r"  place (\d+) ([0-9a-f]{12}) (\d+) (\d+) (\d+) (\d+)")
FREE = re.compile(r"  free (\d+)")
LINKS = re.compile(r"  links \d+((?: [0-9a-f]{12}){1,4})")
QUERY = re.compile(r"  query \d+ (\d+) (\d+) (\d+)")
KINDS = {7: "authentication", 8: "association", 9: "reassociation"}
USUAL_HOLD = 1954
SECONDS = 120
MOST_KEPT = 1 << 14
# Both records given up, and time for every hold: the table is empty again. At an access point there is
# one record, whose links are given up too.
RESET = [bench.primitive(3, PEER, 3), bench.primitive(3, OTHER, 3), bench.clock(LONGEST_STEP)]
RESET_AP = [bench.primitive(3, PEER, 3), bench.links(PEER, ()), bench.clock(LONGEST_STEP)]

Row = collections.namedtuple("Row", "state exchange left hold identifier query query_left links",
                             defaults=(0, 0, 0, 0))
NO_ROW = Row(0, 0, 0, 0)
Turn = collections.namedtuple("Turn", "event verdict ds before after")
Move = collections.namedtuple("Move", "role rsna rule before after ds hold by cause")
QueryMove = collections.namedtuple("QueryMove", "rsna rule before after by cause")


class Trouble(Exception):
    """The program did something that no reading of what it prints allows for."""


def run(command, octets):
    """What the program says of each event: its line, and the lines behind that."""
    try:
        done = subprocess.run(command, input=octets, capture_output=True, timeout=SECONDS)
    except (OSError, subprocess.TimeoutExpired) as fault:
        raise Trouble(f"{command[0]} did not run: {fault}") from fault
    said = []
    for line in done.stdout.decode("latin-1").splitlines():
        if not line.startswith(" "):
            said.append([line])
        elif said:
            said[-1].append(line)
    return said


@functools.lru_cache(MOST_KEPT)
def changed(places, said):
    """The places after an event, each with its address and row; the lines of links and of a query stand behind that of their
    place."""
    places, at = dict(places), None
    for line in said:
        place, links, query, free = (form.match(line) for form in (PLACE, LINKS, QUERY, FREE))
        if place:
            at = int(place.group(1))
            places[at] = bytes.fromhex(place.group(2)), Row(*map(int, place.groups()[2:]))
        elif free and int(free.group(1)) in places:
            del places[int(free.group(1))]
        elif free or (links or query) and at is None:
            raise Trouble(f"no place before '{line}'")
        elif links:
            address, row = places[at]
            places[at] = address, row._replace(links=len(links.group(1).split()))
        elif query:
            address, row = places[at]
            places[at] = address, Row(*row[:4], *map(int, query.groups()), row.links)
    return tuple(places.items())


def tables(said):
    """The places after each event."""
    places = ()
    for _, *lines in said:
        places = changed(places, tuple(lines)) if lines else places
        yield places


def rows(places):
    """The rows of a table by address."""
    return dict(held for _, held in places)


def rows_of(places):
    """The two peers' rows of a table."""
    table = rows(places)
    return table.get(PEER, NO_ROW), table.get(OTHER, NO_ROW)


def situation(both):
    return tuple((row.state, row.exchange, row.hold > 0, row.query, row.links > 0) for row in both)


def alphabet(role, now):
    """All events about the peer and, at a station, about the other: elsewhere no event looks at
    another record. Frames without a rule are tried where the other has no record. Links are named at
    an access point, and where the peer has some its frames come by one of them too."""
    others = events(OTHER, False) if role == bench.STATION else []
    linked = lists(PEER) if role == bench.ACCESS_POINT else []
    linked = linked + (by_links(PEER) if now[0][-1] else [])
    return events(PEER, now[1][0] == 0) + linked + others + clocks()


def tried(command, role, rsna, rule, found):
    """One turn for each event in each of the situations found, each begun from an empty table. The
    rule is edition and protection."""
    words = TIMEOUT, TIMEOUT, *rule, QUERY_RETRY, QUERY_MAXIMUM, NETWORK
    records, trials = [bench.settings(role, OWN, rsna, *words)], []
    reset = RESET_AP if role == bench.ACCESS_POINT else RESET
    for now, path in found.items():
        for event in alphabet(role, now):
            records += reset + path + [event.octets]
            trials.append((event, len(records) - 2, now))
    said = run(command, b"".join(records))
    if len(said) != len(records) - 1:
        raise Trouble(f"{len(records) - 1} events, {len(said)} lines")
    after_each = list(tables(said))
    for event, end, now in trials:
        before, after = rows_of(after_each[end - 1]), rows_of(after_each[end])
        if situation(before) != now:
            raise Trouble(f"the way to {now} led to {situation(before)}")
        fields = said[end][0].split()
        yield now, Turn(event, fields[2], fields[6], before, after)


def explore(command, role, rsna, rule):
    """Every turn of every situation; the way to a situation is a list of records. Where the two
    peers' parts are exchanged it is the same situation."""
    start = situation((NO_ROW, NO_ROW))
    ways, new, known = {}, {start: []}, {start}
    while new:
        ways.update(new)
        found = {}
        for now, turn in tried(command, role, rsna, rule, new):
            after = situation(turn.after)
            if after not in known:
                known |= {after, after[::-1]}
                found[after] = ways[now] + [turn.event.octets]
            yield turn
        new = found


def hold_set(turn, before, after):
    """`kept`, the usual hold, or the comeback that the frame gave."""
    if turn.event.by == "clock" or after.state == 0:
        return "kept"
    if turn.event.comeback is not None and after.hold == turn.event.comeback:
        return "comeback"
    if after.hold == before.hold:
        return "kept"
    return "1954" if after.hold == USUAL_HOLD else f"{after.hold}?"


def clock_cause(role, step, before, after):
    """What a clock step found: an exchange that ran out, or none; for a record that is freed, a hold
    that is over, or not, and at an access point whether it has links."""
    if before.left and before.left <= step:
        why = f"{KINDS.get(before.exchange, 'an exchange of an AP')} timed out"
    else:
        why = "exchange under way" if before.exchange else "no exchange"
    if after.state:
        return why
    if role == bench.STATION or before.hold:  # elsewhere there is none to speak of
        why += ", no hold left" if before.hold <= step else ", a hold left"
    return why + (", links" if before.links else ", no links" if role == bench.ACCESS_POINT else "")


def cause_of(role, turn, address, before, after):
    """The event's name, as the record with this address sees it."""
    if turn.event.by == "clock":
        return clock_cause(role, int(turn.event.cause.split()[0]), before, after)
    if turn.event.about == address:
        return turn.event.cause
    return f"{turn.event.cause}, {'from' if turn.event.by == 'frame' else 'to'} another AP"


def moves_of(turn, role, rsna, rule):
    """The moves that a turn makes: none, the peer's, the other's, or both."""
    for address, before, after in zip((PEER, OTHER), turn.before, turn.after):
        if before.state != after.state:
            ds = turn.ds if turn.event.about == address else "-"
            yield Move(role, rsna, rule, before.state, after.state, ds,
                       hold_set(turn, before, after), turn.event.by,
                       cause_of(role, turn, address, before, after))


def query_cause(turn, before):
    """The event's name, as a query sees it: a response by whether it has the query's identifier, a
    clock step by what it reached."""
    if turn.event.by == "clock":
        step = int(turn.event.cause.split()[0])
        return "maximum reached" if before.query_left <= step else "retry reached"
    name, _, identifier = turn.event.cause.partition(", identifier ")
    if not identifier or int(identifier) == before.identifier:
        return name
    return f"{name}, another identifier"


def query_moves_of(turn, role, rsna, rule):
    """The moves that a turn makes of a query while its peer stays in State 4. Elsewhere there is none."""
    for before, after in zip(turn.before, turn.after):
        if after.query and (after.state != 4 or role != bench.ACCESS_POINT):
            raise Trouble(f"a query in State {after.state} after '{turn.event.cause}'")
        if before.query != after.query and after.state == 4:
            yield QueryMove(rsna, rule, before.query, after.query, turn.event.by,
                            query_cause(turn, before))


def one_cause_one_outcome(turns):
    """Events of one name do the same to both states, queries and links in one situation; the first that
    do not."""
    seen = {}
    for turn in turns:
        key = (situation(turn.before), turn.event.by, turn.event.cause, turn.event.about)
        states = tuple((row.state, row.query, row.links) for row in turn.after)
        if seen.setdefault(key, states) != states:
            return f"'{turn.event.cause}' in {key[0]} leads to {seen[key]} and to {states}"
    return None
