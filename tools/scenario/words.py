"""An answer in words: what was decided, told and sent, and what became of the records."""

from tools import bench_input as bench

from . import codes, frame_words, frames, merge
from .answers import device
from .because import because

VERDICTS = {"A": "admitted", "D": "discarded"}
DS = {"J": "joined", "L": "left"}
REPORT_OCTETS = 8
JOIN_CONFIRMS = (6, 8)
MOST_SHOWN = 24
NOTHING = "nothing changes"
# Fields of a frame sent that are shown only where they are not these.
PLAIN = {"version": 0, "flags": 0, "duration": 0, "sequence": 0, "to-ds": 0, "from-ds": 0,
         "elements": b"", "body": b"", "category": None}
HEXADECIMAL = ("capability", "aid-field", "flags")


def state(number):
    return f"State {number} ({codes.STATES.get(number, 'not in the rules')})"


def exchange(record):
    """The exchange under way, as the reader of a record wants it; '' where there is none."""
    if record.exchange == 0:
        return ""
    kind = codes.KINDS[(record.exchange - 1) % 3 + 1]
    if record.exchange <= 3:
        return f"{kind} asked, our answer is due"
    if record.exchange <= 6:
        return f"{kind} response sent, not yet acknowledged"
    return f"{kind} request sent, {record.left} TU left for the answer"


def query(record):
    """The SA Query of a record, '' where there is none."""
    if record.query == 0:
        return ""
    number = f"SA Query {record.identifier}"
    return {1: f"{number} runs, {record.query_left} TU left for the answer",
            2: f"{number} runs, its request is due, {record.query_left} TU left",
            3: f"{number} timed out: the next request passes"}[record.query]


def links(record, say):
    """The links of a device; '' where it has none."""
    return "links " + " ".join(map(say, record.links)) if record.links else ""


def details(record, no_hold="", no_query=""):
    """Exchange, hold and query, each behind a comma; no_hold and no_query are said where there is none."""
    parts = [exchange(record), f"hold {record.hold} TU" if record.hold else no_hold,
             query(record) or no_query]
    return "".join(", " + part for part in parts if part)


def change(say, old, new, rejected=False):
    """One record after an event, against the one before; its links where they are new."""
    name = say((new or old).address)
    if new is None:
        return f"{name}: place {old.place} free again"
    if old is None:
        named = ", " + links(new, say) if new.links else ""
        return f"{name}: new record in place {new.place}, {state(new.state)}{named}{details(new)}"
    moved = "stays in " if old.state == new.state else f"State {old.state} -> "
    no_hold = "no hold" if rejected else "hold over" if old.hold else ""
    no_query = {0: "", 3: "the timed-out SA Query is used up"}.get(old.query, "SA Query over")
    named = "" if old.links == new.links else ", " + (links(new, say) or "no links")
    return f"{name}: {moved}{state(new.state)}{named}{details(new, no_hold, no_query)}"


def shortened(octets):
    """Octets in hexadecimal, the first of them where they are many."""
    if len(octets) <= MOST_SHOWN:
        return octets.hex()
    return f"{octets[:MOST_SHOWN].hex()}.. ({len(octets)} octets)"


def field(name, value, say, word):
    """One field of a frame, with the meaning of a code; a request's status has none."""
    if frame_words.FIELDS[name].kind == "address":
        return f"{name}={say(value)}"
    if isinstance(value, bytes):
        return f"{name}={shortened(value)}"
    if name in ("status", "reason") and word != "auth-request":
        number, _, meaning = codes.coded(name, value).partition(" ")[2].partition(" ")
        return f"{name}={number} {meaning}".rstrip()
    return f"{name}={value:#06x}" if name in HEXADECIMAL else f"{name}={value}"


def frame(octets, say, hide=()):
    """A frame by its word and fields; by its octets where no word writes it."""
    found = frames.decode(octets)
    if found is None:
        return f"raw {shortened(octets)}"
    row, fields = found
    order = [name for name in frame_words.FIELDS if name in fields]
    shown = [field(name, fields[name], say, row.word) for name in order
             if name not in hide and PLAIN.get(name) != fields[name]]
    return " ".join([row.word] + shown)


def sent(octets, say):
    """The frame that the table wrote: ours, so its sender and Address 3 go without saying."""
    return "sends " + frame(octets, say, hide=("from", "third"))


def reports(octets, say):
    """The reports of a clock step: what timed out, and where a query's request is due again."""
    lines = []
    for at in range(0, len(octets), REPORT_OCTETS):
        place, kind = octets[at], octets[at + 1]
        peer = say(octets[at + 2:at + REPORT_OCTETS])
        what = codes.REPORTS.get(kind, f"report of kind {kind}:")
        lines.append(f"{what} with {peer}, place {place}")
    return merge.lines(lines)


def notice(answer, say):
    name, code = codes.NOTICES[answer.notice]
    text = f"tells our side: {name}"
    if code:
        text += ", " + codes.coded(code, answer.code)
    if answer.current is not None:
        text += f", current AP {say(answer.current)}"
    return text


def peer_record(event, answer, before, say):
    """The peer's record, in one line or none."""
    after = answer.table
    peer = device(event.peer, after)
    if peer in after:
        rejected = answer.notice in JOIN_CONFIRMS and answer.code != 0
        return [change(say, before.get(peer), after[peer], rejected)]
    return [f"{say(peer)}: no record"] if peer is not None else []


def others(changed, before, after, say, peer=None):
    """The records that are not as they were, but for the peer's."""
    return together([change(say, before.get(address), after.get(address)) for address in changed if address != peer])


def together(told):
    """Lines on records that are not the peer's, those that count on made one."""
    return merge.lines(told) if len(told) > 2 else told


def steps(played, say):
    """What several clock steps did together."""
    octets = b"".join(answer.octets for _, answer, _ in played)
    before, after = played[0][2], played[-1][1].table
    places = {**before, **after}
    changed = [address for address in sorted(places, key=lambda known: places[known].place)
               if before.get(address) != after.get(address)]
    return reports(octets, say) + others(changed, before, after, say) or [NOTHING]


def decided(event, answer, before, settings, say):
    """Whether an event was refused, discarded or let in, and why it was not, or did nothing; '' where there is no verdict."""
    why = because(event, answer, before, settings, say)
    if answer.refusal:
        return f"refused {answer.refusal} because {why}"
    if why:
        return f"discarded because {why}" if answer.verdict == "D" else f"admitted, with nothing to do because {why}"
    return VERDICTS.get(answer.verdict, "")


def own(event, answer, before, settings, say):
    """The lines that say what an event did, but for the records of others."""
    lines = ["heard as " + frame(event.frame, say)] if event.raw and frames.decode(event.frame) else []
    verdict = decided(event, answer, before, settings, say)
    if answer.refusal and not answer.changed and not answer.octets:
        return lines + [f"{verdict}; {NOTHING}"]
    lines += [verdict] if verdict else []
    if answer.notice:
        lines.append(notice(answer, say))
    if answer.octets:
        lines += reports(answer.octets, say) if event.kind == "clock" else [sent(answer.octets, say)]
    if answer.ds in DS:
        lines.append(f"tells the distribution system: {DS[answer.ds]}")
    return lines + peer_record(event, answer, before, say)


def tell(event, answer, before, settings, say):
    """The lines that say what an event did."""
    lines = own(event, answer, before, settings, say)
    return lines + others(answer.changed, before, answer.table, say, device(event.peer, answer.table)) or [NOTHING]


def table(answer, say):
    """The table after an event, a line for each place that is not free."""
    if not answer.table:
        return ["table: empty"]
    rows = sorted(answer.table.values(), key=lambda record: record.place)
    return ["table:"] + [f"  place {row.place}: {say(row.address)} {bench.address_text(row.address)}, "
                         f"{state(row.state)}{', ' + links(row, say) if row.links else ''}{details(row)}"
                         for row in rows]
