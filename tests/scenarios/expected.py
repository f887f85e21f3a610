"""Expectations that are met and that are not: each kind of them, played on a program."""

from tools.scenario import show, stream

from .playing import lines_of

START = """station own=02:00:00:00:01:01
name dock = 02:00:00:00:00:0a
name yard = 02:00:00:00:00:0b
"""
AP_START = """ap own=02:00:00:00:00:0a edition=2 protection=1
name scanner = 02:00:00:00:01:01
name tablet = 02:00:00:00:02:00
name radio-1..2 = 02:00:00:00:02:01
"""
JOINED = """frame auth-request from=scanner
prim respond-authenticate scanner
frame assoc-request from=scanner
prim respond-associate scanner
prim report scanner
"""
SENT = "sends auth-request to=dock algorithm=0 transaction=1 status=0"
TIMED_OUT = "timed out: authentication with dock, place 0"
SAID = "tells our side: DEAUTHENTICATE.indication, reason 4 (inactivity)"
NOTHING_TOLD = "the distribution system is told nothing"
# Settings, lines before, an event, what is met of it, and what is not, with what came instead.
PLAYED = [
    (START, "", "prim authenticate dock",
     ["done", "sends auth-request", "sends auth-request to=dock transaction=1 length=30", "state dock 1", "place dock 0",
      "exchange dock authentication", "hold dock 0", "tells nothing", "query dock none", "links dock none"],
     {"refused": "done", "refused 9": "done", "admitted": "done", "discarded": "done",
      "nothing": "something is sent or reported", "joined": NOTHING_TOLD, "left": NOTHING_TOLD,
      "sends nothing": SENT, "sends auth-response": SENT, "sends auth-request to=yard": SENT,
      "tells authenticate.confirm": "our side is told nothing", "state dock 2": "dock is in State 1",
      "state dock none": "dock is in State 1", "state yard 1": "yard has no record", "place yard 1": "yard has no record",
      "place dock 1": "dock is in place 0", "hold dock 5": "the hold on dock is 0 TU",
      "exchange dock none": "dock has exchange authentication", "query dock due": "dock has query none",
      "links dock yard": "dock has no links"}),
    (START, "prim authenticate dock\n", "clock 100",
     ["reports authentication dock", "state dock none", "state yard none", "hold dock 0", "exchange dock none"],
     {"reports nothing": TIMED_OUT, "reports association dock": TIMED_OUT, "reports authentication yard": TIMED_OUT,
      "state dock 1": "dock has no record"}),
    (START, "prim authenticate dock\n", "clock 200s", ["reports authentication dock", "done"],
     {"reports query dock": TIMED_OUT, "nothing": "event 2: something is sent or reported"}),
    (START, "prim authenticate dock\n", "prim authenticate dock", ["refused", "refused 9", "nothing"],
     {"done": "refused 9", "refused 8": "refused 9", "sends auth-request": "nothing is sent", "admitted": "refused 9"}),
    (AP_START, JOINED, "frame data from=scanner",
     ["admitted", "nothing", "done", "sends nothing", "because nothing-to-do", "because nothing-to-do 0"],
     {"discarded": "admitted", "refused": "admitted", "because none": "nothing-to-do 0"}),
    (AP_START, "", "frame data from=scanner", ["because class-filter", "because class-filter 1"],
     {"because class-filter 2": "class-filter 1", "because no-class": "class-filter 1"}),
    (AP_START, JOINED, "frame assoc-request from=scanner",
     ["query scanner due", "sends assoc-response status=30 comeback=1000 aid=0"],
     {"query scanner sent": "scanner has query due", "tells associate.indication": "our side is told nothing"}),
    (AP_START, JOINED, "frame deauth from=scanner reason=4",
     ["left", "tells deauthenticate.indication reason=4", "tells Deauthenticate-Indication"],
     {"joined": "told: left", "nothing": "our side is told something", "tells deauthenticate.indication reason=5": SAID}),
    (AP_START, "", "links tablet radio-1..2", ["links tablet radio-1..2", "state radio-2 1", "place radio-1 0"],
     {"links tablet radio-1": "tablet has links radio-1 radio-2", "nothing": "a record changes"}),
    (AP_START, "", "frame auth-request from=radio-1..2", ["admitted", "place radio-1 0", "state radio-1..2 1"],
     {"place radio-1..2 0": "radio-2 is in place 1", "refused 3": "event 1: admitted"}),
]


def one(start, before, event, wanted, program):
    """What came in place of one expectation, '' where it is met."""
    teller = show.Teller()
    text = f"{start}{before}{event}\nexpect {wanted}\n"
    for line, turns in stream.one_by_one(iter(lines_of(text)), program):
        teller.line(line, turns)
    return teller.failed[0][1] if teller.failed else ""


def faults(program):
    found = []
    for start, before, event, met, unmet in PLAYED:
        for wanted, came in [(wanted, "") for wanted in met] + list(unmet.items()):
            got = one(start, before, event, wanted, program)
            if got != came:
                found.append(f"{event}: expect {wanted}: {got or 'met'}")
    return found
