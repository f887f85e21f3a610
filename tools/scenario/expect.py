"""What a scenario says must come: read from its line, and held against what the program answered."""

import collections

from . import codes, frame_words, frames, words as told
from .because import REASONS
from .suggest import one_of
from .values import Fault, number

# What is expected: a word, and what stands behind it; peers are a list of addresses.
Expected = collections.namedtuple("Expected", "word peers value fields", defaults=((), None, {}))

FORMS = {
    "refused": "refused NUMBER, or refused for any number", "done": "done: not refused",
    "admitted": "admitted", "discarded": "discarded",
    "sends": "sends WORD FIELD=.., or sends nothing", "tells": "tells NOTICE, with status=.. or reason=.., or tells nothing",
    "because": "because REASON VALUE, or without the value: the rule that decided, as class-filter 2",
    "joined": "joined: the distribution system is told so", "left": "left: the same",
    "reports": "reports KIND PEER, or reports nothing", "nothing": "nothing: no record changes, nothing is sent or told",
    "state": "state PEER NUMBER, or state PEER none without a record", "hold": "hold PEER TU",
    "exchange": "exchange PEER KIND, or exchange PEER none", "query": "query PEER none|sent|due|timed-out",
    "place": "place PEER NUMBER", "links": "links PEER ADDRESS .., or links PEER none",
}
QUERIES = {"none": 0, "sent": 1, "due": 2, "timed-out": 3}
EXCHANGES = {"none": 0, **{name: kind for kind, name in codes.KINDS.items()}}
REPORTS = {**{name: kind for kind, name in codes.KINDS.items()}, "query-retry": 4, "query": 5}
NOTICES = {name.lower(): notice for notice, (name, _) in codes.NOTICES.items()}
BARE = ("done", "admitted", "discarded", "joined", "left", "nothing")
MOST = {"state": 4, "hold": 0xFFFFFFFF, "place": 31}
VERDICTS = {"admitted": "A", "discarded": "D"}
DS = {"joined": "J", "left": "L"}


def _wrong(word):
    return Fault(f"an expect line of this kind is: expect {FORMS[word]}")


def _sends(words, reader):
    if words[0].lower() == "nothing":
        return Expected("sends")
    row = frame_words.BY_WORD[one_of(words[0], frame_words.BY_WORD, "frame", others=frame_words.FAMILIES)]
    fields = frame_words.fields_of(row)
    return Expected("sends", (), row.word, reader.values(reader.fields(words[1:], fields, row.word))[0])


def _tells(words, reader):
    if words[0].lower() == "nothing":
        return Expected("tells", (), 0)
    notice = NOTICES[one_of(words[0].replace("-", "."), NOTICES, "notice", others="scenario --help notices lists them")]
    given = reader.fields(words[1:], ["code", "status", "reason"], words[0])
    code = [number(text, name, 0xFFFF) for name, text in given.items()]
    if len(code) > 1:
        raise Fault("a notice has one code: give one of code, status and reason")
    return Expected("tells", (), notice, {"code": code[0]} if code else {})


def _because(words, _):
    if len(words) > 2:
        raise _wrong("because")
    reason = one_of(words[0], REASONS, "reason")
    return Expected("because", (), reason, {"value": number(words[1], reason, 0xFFFFFFFF)} if len(words) > 1 else {})


def _reports(words, reader):
    if words[0].lower() == "nothing":
        return Expected("reports")
    kind = REPORTS[one_of(words[0], REPORTS, "report")]
    if len(words) != 2:
        raise _wrong("reports")
    return Expected("reports", reader.names.find(words[1], "peer"), kind)


def _of_peer(word, words, reader):
    if len(words) < 2 or len(words) > 2 and word != "links":
        raise _wrong(word)
    peers = reader.names.find(words[0], "peer")
    if word == "links":
        return Expected(word, peers, tuple(reader.several(words[1:], "expect links PEER none")))
    if word == "query":
        return Expected(word, peers, QUERIES[one_of(words[1], QUERIES, "case of a query")])
    if word == "exchange":
        return Expected(word, peers, EXCHANGES[one_of(words[1], EXCHANGES, "kind of exchange")])
    none = word in ("state", "place") and words[1].lower() == "none"
    return Expected(word, peers, None if none else number(words[1], word, MOST[word]))


def read(words, reader):
    """The expectation of a line."""
    if not words:
        raise Fault("an expect line is: expect refused 8, expect state PEER 4, expect sends deauth reason=7; "
                    "scenario --help expect lists them all")
    word = one_of(words[0], FORMS, "word behind expect")
    rest = words[1:]
    if word in BARE or word == "refused":
        if len(rest) > (word == "refused"):
            raise _wrong(word)
        return Expected(word, (), number(rest[0], "refused", 9) if rest else None)
    if not rest:
        raise _wrong(word)
    several = {"sends": _sends, "tells": _tells, "because": _because, "reports": _reports}
    return several[word](rest, reader) if word in several else _of_peer(word, rest, reader)


# Each judge says what came instead; '' where it is as expected. One is of an answer, or of a record after the line.

def _came(answer):
    if answer.refusal:
        return f"refused {answer.refusal}"
    return {"A": "admitted", "D": "discarded"}.get(answer.verdict, "done")


def _refused(wanted, answer, at, say):
    met = answer.refusal == wanted.value if wanted.value is not None else answer.refusal > 0
    return "" if met else _came(answer)


def _bare(wanted, answer, at, say):
    if wanted.word == "done":
        return f"refused {answer.refusal}" if answer.refusal else ""
    if wanted.word in VERDICTS:
        return "" if answer.verdict == VERDICTS[wanted.word] else _came(answer)
    if answer.ds == DS[wanted.word]:
        return ""
    return {"J": "told: joined", "L": "told: left"}.get(answer.ds, "the distribution system is told nothing")


def _nothing(wanted, answer, at, say):
    parts = [(answer.octets, "something is sent or reported"), (answer.notice, "our side is told something"),
             (answer.ds != "-", "the distribution system is told something"), (answer.changed, "a record changes")]
    return next((said for there, said in parts if there), "")


def _sends_words(answer, say):
    return told.sent(answer.octets, say) if answer.octets else "nothing is sent"


def _sent(wanted, answer, at, say):
    if wanted.value is None or not answer.octets:
        return "" if wanted.value is None and not answer.octets else _sends_words(answer, say)
    found = frames.decode(answer.octets)
    row, fields = found if found else (None, {})
    fields = {**fields, "length": len(answer.octets)}
    met = row and row.word == wanted.value and all(
        fields.get(name) == (value[at % len(value)] if isinstance(value, list) else value)
        for name, value in wanted.fields.items())
    return "" if met else _sends_words(answer, say)


def _told(wanted, answer, at, say):
    met = answer.notice == wanted.value and wanted.fields.get("code", answer.code) == answer.code
    return "" if met else told.notice(answer, say) if answer.notice else "our side is told nothing"


def _record(wanted, peer, record, say):
    """What a record has in place of what is expected of it."""
    if record is None:
        none = wanted.value in (None, 0, ()) and wanted.word != "place" or wanted.value is None
        return "" if none else f"{say(peer)} has no record"
    has = getattr(record, wanted.word)
    if wanted.word == "exchange" and has:
        has = (has - 1) % 3 + 1
    if has == wanted.value:
        return ""
    name = say(peer)
    if wanted.word == "links":
        return f"{name} has {told.links(record, say) or 'no links'}"
    named = {"query": QUERIES, "exchange": EXCHANGES}.get(wanted.word, {})
    shown = next((word for word, value in named.items() if value == has), has)
    return {"state": f"{name} is in State {has}", "hold": f"the hold on {name} is {has} TU",
            "place": f"{name} is in place {has}"}.get(wanted.word, f"{name} has {wanted.word} {shown}")


def _reported(wanted, played, say):
    """The reports of all clock steps of a line."""
    octets = b"".join(answer.octets for event, answer, _ in played if event.kind == "clock")
    found = {(octets[at + 1], octets[at + 2:at + 8]) for at in range(0, len(octets), told.REPORT_OCTETS)}
    met = not found if wanted.value is None else all((wanted.value, peer) in found for peer in wanted.peers)
    return "" if met else "; ".join(told.reports(octets, say)) or "nothing is reported"


def _decided(wanted, answer, at, say):
    met = answer.reason == wanted.value and wanted.fields.get("value", answer.value) == answer.value
    return "" if met else f"{answer.reason} {answer.value}"


JUDGES = {"refused": _refused, "sends": _sent, "tells": _told, "nothing": _nothing, "because": _decided}


def judge(wanted, played, say):
    """What came in place of what a line expects of the events above it; '' where it is as expected."""
    if wanted.word == "reports":
        return _reported(wanted, played, say)
    if wanted.peers:
        after = played[-1][1].table
        found = (_record(wanted, peer, after.get(told.device(peer, after)), say) for peer in wanted.peers)
        return next(filter(None, found), "")
    for at, (_, answer, _) in enumerate(played):
        came = JUDGES.get(wanted.word, _bare)(wanted, answer, at, say)
        if came:
            return came if len(played) == 1 else f"event {answer.number}: {came}"
    return ""
