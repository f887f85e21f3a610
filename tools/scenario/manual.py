"""The text of --help; the lists of frames, fields, primitives and numbers come from the tool's own tables."""

import textwrap

from . import codes, expect, frame_words, primitives, suggest, topics
from .values import cut

HEAD = """\
scenario: plays a scenario on the bench program and tells what the peer table answers

  scenario FILE                  the scenario's own lines, and below each what it did, in words
  scenario --table FILE          the same with the whole table after each event
  scenario --check FILE ..       only what was not as an 'expect' line of a scenario says
  scenario --chart OUT.svg FILE  the message chart of it, a picture
  scenario --rival LOG FILE      another maker's log of answers, in plain lines: right, or the first event that it answers
                                 otherwise, with both answers in words and the rule that decides ours
  scenario --lines FILE          the bench program's plain lines
  scenario --octets FILE         the bench input itself, octets on standard output; nothing is run
  scenario --from CAPTURE --settings 'ap own=ADDRESS'
                                 a capture (pcap, link type 105) as the text of a scenario: a frame a line, in
                                 words, with the clock steps between; './capture' makes such of others
  scenario --help [WORD]         this text; what a word means and takes, with an example

FILE '-' is standard input, and so is LOG. A fault is told as FILE:LINE: what is wrong and what would be right, all faults of a
file at once, 20 at most, and the status is 1; so it is where an expectation is not met. --bench PROGRAM plays on
another program than ./bench.

A scenario, one thing a line, '#' to the end of the line a comment:

  ap own=02:00:00:00:00:01 rsna=0 timeouts=100,100
  name scanner = 02:00:00:00:00:0a
  frame auth-request from=scanner
  prim respond-authenticate scanner status=0
  expect state scanner 2
  clock 2s

Settings come first: 'ap', 'station' or 'ad-hoc' (or 'settings role=N') with own=ADDRESS, rsna=0|1 (0 if not
given) and timeouts=AUTHENTICATION,ASSOCIATION in TU (100,100). A TU is 1,024 microseconds. Also
edition=1|2 (1) and protection=0|1 (0): the rule for an association that an AP rejects. Edition 1 puts the
peer to State 2; edition 2 puts State 4 to 3 and keeps others, with protection it keeps State 4 too.
query-retry=TU (201) and query-maximum=TU (1000) are the times of an SA Query: with edition 2 and protection
an AP answers a request in State 4 with status 30 and asks the peer first.
'ad-hoc' is a network without an AP. It needs network=ADDRESS, the network's own, which is Address 3 of every
frame there. Only class 1 passes, and data with to-ds=0 and from-ds=0 (as it is if not given), block acks and
all actions are of it.
Another settings line begins anew: an empty table, events counted from 1, the names kept.

  name NAME = ADDRESS              a name for an address; 'own', 'broadcast' and 'none' are taken
  name scanner-1..30 = ADDRESS     thirty names, for this address and those that follow it
  frame WORD FIELD=..              a frame comes in
  frame raw b0 00 3a 01 00*20 ..   a frame by its octets
  prim WORD|NUMBER ADDRESS CODE=.. a primitive of our own side
  links DEVICE ADDRESS ..          primitive 12 at an AP: these are the links of a device in State 1, one to
                                   four; 'links DEVICE none' takes them away
  clock TIME                       time passes: TU, or with a unit as 2s, 500ms, 1.5min; whole TU count
  expect ..                        what the event above must have done

A line with a range of names, as from=scanner-1..30, is played once for each; behind links DEVICE it is so
many links. A device has one record for all its links: a frame comes from=LINK, a primitive names the
device. Numbers are decimal or, with 0x, hexadecimal, and have to fit their field. What fits and the rules
refuse is played all the same and gets its refusal number. An address is 02:00:00:00:00:0a, 02-00-00-00-00-0a,
0200.0000.000a or 02000000000a; octets are 38 05, 38:05, 38-05, 0x38 or 3805. A name has a letter first, then
letters, digits, '-' and '_'. Words may be written in capitals.
"""
EXAMPLES = """\
What scenarios are made of, by example ('scenario' and a file of examples/ shows more):

  ap own=02:00:00:00:00:01 edition=2                        rejections by the second rule: editions
  ap own=02:00:00:00:00:01 edition=2 protection=1           requests of peers that joined are asked back: forged_rejoin
  prim query scanner                                        primitive 11 sends the query's request that is due
  frame sa-query-response from=scanner id=1                 the peer answers the query
  frame public-action from=scanner body=0a01                a question before joining, class 1
  frame assoc-response from=dock status=30 comeback=0       rejected, and asked to come back at once: comeback
  ad-hoc own=02:00:00:00:01:01 network=06:00:00:00:00:ad    two scanners without an AP: cold_store
  links tablet radio-1..3                                   a tablet with three radios: tablet
  expect refused 8                                          the line above must have been refused so
  expect sends deauth to=scanner reason=7                   or must have sent this"""


def _table(title, rows, wide):
    return [title, ""] + [f"  {name!s:{wide}}{about}" for name, about in rows] + [""]


def _frames():
    rows = ["Frames (class) and their fields:", ""]
    for row in frame_words.TABLE:
        fields = " ".join(frame_words.own_fields(row))
        rows.append(f"  {row.word:21}({row.class_})  {row.about}: {fields}")
    return rows + [""]


def _fields():
    rows = _table("Fields:", [(field.name, field.about) for field in frame_words.ALL_FIELDS], 16)
    rows += ["Every frame also takes " + ", ".join(frame_words.RARE) + ";"]
    return rows + ["all but control frames " + ", ".join(frame_words.RARE_BESIDE_CONTROL) + ".", ""]


def _primitives():
    rows = ["Primitives, their code (its value if not given) and the roles they are for:", ""]
    for row in primitives.TABLE:
        code = f"{row.code}={row.default}"
        rows.append(f"  {row.number:2}  {row.word:21}{row.name:24}{code:16}{row.roles}")
    return rows + ["", "code=N is taken for each of them.", ""]


def _expects():
    return _table("What can be expected of the line above; after a range of each of its events, states after the last:",
                  [(word, f"expect {form}") for word, form in expect.FORMS.items()], 12)


def _refusals():
    return _table("Refusals; a refusal changes nothing:", [(number, about) for number, about in codes.ALL_REFUSALS.items()], 4)


def _notices():
    rows = [(number, name + (f", with a {code}" if code else "")) for number, (name, code) in codes.NOTICES.items()]
    return _table("Notices, what our own side is told:", rows, 4)


def _status():
    return _table("Status, of a response (any number is taken):", codes.STATUS.items(), 4)


def _reasons():
    return _table("Reasons, of a deauth and a disassoc (any number is taken):", codes.REASON.items(), 4)


def _states():
    return _table("States of a peer; one without a record counts as State 1:", codes.STATES.items(), 4)


LISTS = {"frames": _frames, "fields": _fields, "primitives": _primitives, "expect": _expects, "states": _states,
         "refusals": _refusals, "notices": _notices, "status": _status, "reason": _reasons}
# Other words for the lists.
SAME = {"frame": "frames", "field": "fields", "prim": "primitives", "primitive": "primitives", "refusal": "refusals",
        "refused": "refusals", "notice": "notices", "tells": "notices", "reasons": "reason", "state": "states",
        "statuses": "status", "expectations": "expect"}


def _row_help(row):
    fields = [frame_words.FIELDS[name] for name in frame_words.fields_of(row)]
    example = f"frame {row.word}" + "".join(
        f" {name}={value}" for name, value in (("from", "scanner"), ("current-ap", "yard")) if name in frame_words.fields_of(row))
    return [f"frame {row.word}: {row.about}, class {row.class_}", ""] + _table(
        "Its fields:", [(field.name, field.about) for field in fields], 16) + [f"  {example}", ""]


def _primitive_help(row):
    return [f"prim {row.word}, or prim {row.number}: {row.name}, for {row.roles.replace('all', 'every role')}", "",
            f"  prim {row.word} PEER {row.code}={row.default}", "",
            f"{row.code} is {row.default} if not given; code=.. is the same.", ""]


def _field_help(field):
    takes = [row.word for row in frame_words.TABLE if field.name in frame_words.own_fields(row)]
    taken = ", ".join(takes) if takes else "every frame" if field.name in frame_words.RARE else "all but control frames"
    return [f"{field.name}=.. of a frame: {field.about}", "", *textwrap.wrap(f"Taken by {taken}.", 110), ""]


def about(word):
    """What is said of one word: all that it stands for."""
    said = []
    if word in frame_words.BY_WORD:
        said += _row_help(frame_words.BY_WORD[word])
    if word in primitives.BY_WORD:
        said += _primitive_help(primitives.BY_WORD[word])
    if word in topics.TOPICS:
        said += [topics.TOPICS[word], ""]
    if word in frame_words.FIELDS:
        said += _field_help(frame_words.FIELDS[word])
    name = SAME.get(word, word)
    return said + (LISTS[name]() if name in LISTS else [])


def known():
    return list(dict.fromkeys([*frame_words.BY_WORD, *primitives.BY_WORD, *topics.TOPICS, *frame_words.FIELDS, *LISTS, *SAME]))


def text(words=()):
    """The whole manual, or what is said of some words."""
    if not words:
        lists = [line for make in LISTS.values() for line in make()]
        return "\n".join([HEAD, EXAMPLES, ""] + lists).rstrip("\n") + "\n"
    said = []
    for word in words:
        found = about(word.lower())
        if not found:
            near = suggest.near(word, known())
            found = [f"No word of a scenario is {cut(word)}: "
                     + (suggest.question(near) if near else "scenario --help lists them all."), ""]
        said += found
    return "\n".join(said).rstrip("\n") + "\n"
