"""The scenes of the message charts: events, and what the program must answer to each.

tests/pictures/check.py plays them. In the join two tables talk to each other: what one writes is what the
other hears, octet for octet.
"""

import collections

from tools import bench_input as bench

AP = bench.address("02:00:00:00:00:01")
STATION = bench.address("02:00:00:00:00:0a")
ONE, TWO = bench.address("02:00:00:00:01:01"), bench.address("02:00:00:00:01:02")
NETWORK = bench.address("06:00:00:00:00:ad")
TABLET = bench.address("02:00:00:00:02:00")
RADIOS = tuple(bench.address(f"02:00:00:00:02:0{n}") for n in (1, 2, 3))
# Each side's own address, its peer's, and its role; `site` is an access point with a tablet.
OWN = {"ap": AP, "station": STATION, "one": ONE, "two": TWO, "site": AP}
PEER = {"ap": STATION, "station": AP, "one": TWO, "two": ONE, "site": TABLET}
ROLE = {"ap": bench.ACCESS_POINT, "station": bench.STATION, "one": bench.AD_HOC, "two": bench.AD_HOC,
        "site": bench.ACCESS_POINT}

# side: whose table; event: ("ask", primitive, code), ("hear", octets), ("clock", TU) or ("links", links);
# answer: the bench line without its number; sent: the octets written; hold and query: the peer's after
# it, a query as its identifier, its case and what is left; forged: whether somebody else sent the frame.
Step = collections.namedtuple("Step", "side event answer sent hold query forged",
                              defaults=(b"", 0, (0, 0, 0), False))
# The rule is edition and protection of the access point's settings.
Scene = collections.namedtuple("Scene", "steps rule", defaults=((),))


def authentication(to, sender, transaction, third=AP):
    fields = b"".join(bench.number(field) for field in (0, transaction, 0))
    return bench.management(bench.AUTHENTICATION, to, sender, fields, third)


def rejection(comeback):
    """A response with status 30; comeback None leaves the element out."""
    elements = b"" if comeback is None else bench.timeout_interval(comeback)
    return bench.association_response(STATION, AP, 30, 0, elements=elements)


FIRST = authentication(AP, STATION, 1)
SECOND = authentication(STATION, AP, 2)
REQUEST = bench.association_request(AP, STATION)
SUCCESS = bench.association_response(STATION, AP)
ACK = bench.control(bench.ACK, AP)

JOIN = (
    Step("station", ("ask", 1, 0), "0 - 0 0 30 - 1", FIRST),
    Step("ap", ("hear", FIRST), "0 A 1 0 0 - 1"),
    Step("ap", ("ask", 2, 0), "0 - 0 0 30 - 2", SECOND),
    Step("station", ("hear", SECOND), "0 A 2 0 0 - 2"),
    Step("station", ("ask", 4, 0), "0 - 0 0 28 - 2", REQUEST),
    Step("ap", ("hear", REQUEST), "0 A 5 0 0 - 2"),
    Step("ap", ("ask", 7, 0), "0 - 0 0 30 - 2", SUCCESS),
    Step("station", ("hear", SUCCESS), "0 A 6 0 0 - 4"),
    Step("ap", ("hear", ACK), "0 A 0 0 0 - 0"),
    Step("ap", ("ask", 10, 1), "0 - 0 0 0 J 4"),
    Step("ap", ("hear", bench.data(AP, STATION)), "0 A 0 0 0 - 4"),
)
# The parts of the join, each with the number of its first step.
PARTS = {0: "Authentication", 4: "Association", 8: "Acknowledgement", 10: "Data"}

# Before a rejection: the station is authenticated.
AUTHENTICATED = JOIN[0:1] + JOIN[3:4]
ASK = ("ask", 4, 0)


def rejected(comeback, hold):
    return (Step("station", ASK, "0 - 0 0 28 - 2", REQUEST),
            Step("station", ("hear", rejection(comeback)), "0 A 6 30 0 - 2", hold=hold))


JOINED_AFTER = (Step("station", ASK, "0 - 0 0 28 - 2", REQUEST),
                Step("station", ("hear", SUCCESS), "0 A 6 0 0 - 4"))

COMEBACK_0 = rejected(0, 0) + JOINED_AFTER
COMEBACK_5 = rejected(5, 5) + (
    Step("station", ASK, "8 - 0 0 0 - 0", hold=5),
    Step("station", ("clock", 4), "0 - 0 0 0 - 0", hold=1),
    Step("station", ASK, "8 - 0 0 0 - 0", hold=1),
    Step("station", ("clock", 1), "0 - 0 0 0 - 0"),
) + JOINED_AFTER


# Not drawn, but what the chart says of a rejection without the element rests on it.
NO_COMEBACK = rejected(None, 1954)


# A request to rejoin in the address of a scanner that has joined. Without protection it is thrown out.
JOINED = tuple(step for step in JOIN if step.side == "ap")
DATA = bench.data(AP, STATION)
THROWN_OUT = (
    Step("ap", ("hear", REQUEST), "0 A 5 0 0 - 4", forged=True),
    Step("ap", ("ask", 7, 17), "0 - 0 0 30 L 2", bench.association_response(STATION, AP, 17, 0)),
    Step("ap", ("hear", DATA), "0 D 0 0 26 - 2",
         bench.management(bench.DISASSOCIATION, STATION, AP, bench.number(7), third=AP)),
)

# With protection the scanner is asked first. What its own table hears is what the AP's wrote.
QUERY = bench.management(bench.ACTION, STATION, AP, b"\x08\0\1\0", third=AP)
ANSWER = bench.sa_query(AP, STATION, bench.QUERY_RESPONSE, 1)
PUT_OFF = rejection(1000)
BEGUN = (
    Step("ap", ("hear", REQUEST), "0 A 0 0 37 - 4", PUT_OFF, query=(1, 2, 1000), forged=True),
    Step("ap", ("ask", 11, 0), "0 - 0 0 28 - 4", QUERY, query=(1, 1, 1000)),
)
ASKED_FIRST = BEGUN + (
    Step("station", ("hear", QUERY), "0 A 0 0 28 - 4", ANSWER),
    Step("ap", ("hear", ANSWER), "0 A 0 0 0 - 4", query=(1, 0, 0)),
    Step("ap", ("hear", DATA), "0 A 0 0 0 - 4", query=(1, 0, 0)),
)

# Not drawn, but what the chart says of a query that nobody answers rests on it: a retry, the end, and a
# request that passes.
RETRY, MAXIMUM = 201, 1000
UNANSWERED = BEGUN + (
    Step("ap", ("clock", RETRY - 1), "0 - 0 0 0 - 0", query=(1, 1, MAXIMUM - RETRY + 1)),
    Step("ap", ("clock", 1), "0 - 0 0 8 - 0", b"\0\4" + STATION, query=(1, 2, MAXIMUM - RETRY)),
    Step("ap", ("ask", 11, 0), "0 - 0 0 28 - 4", QUERY, query=(1, 1, MAXIMUM - RETRY)),
    Step("ap", ("clock", MAXIMUM - RETRY), "0 - 0 0 8 - 0", b"\0\5" + STATION, query=(1, 3, 0)),
    Step("ap", ("hear", REQUEST), "0 A 5 0 0 - 4", query=(1, 0, 0)),
)


# Two scanners of an ad hoc network ask at once: each answers the other's request, and the answer to
# its own does nothing then.
REQUEST_1, REQUEST_2 = (authentication(PEER[side], OWN[side], 1, NETWORK) for side in ("one", "two"))
ANSWER_1, ANSWER_2 = (authentication(PEER[side], OWN[side], 2, NETWORK) for side in ("one", "two"))
DIRECT_1, DIRECT_2 = (bench.header(bench.frame_control(bench.DATA, 0), PEER[side], OWN[side], NETWORK)
                      for side in ("one", "two"))
BOTH_ASK = (
    Step("one", ("ask", 1, 0), "0 - 0 0 30 - 1", REQUEST_1),
    Step("two", ("ask", 1, 0), "0 - 0 0 30 - 1", REQUEST_2),
    Step("two", ("hear", REQUEST_1), "0 A 1 0 0 - 1"),
    Step("one", ("hear", REQUEST_2), "0 A 1 0 0 - 1"),
    Step("one", ("ask", 2, 0), "0 - 0 0 30 - 2", ANSWER_1),
    Step("two", ("ask", 2, 0), "0 - 0 0 30 - 2", ANSWER_2),
    Step("two", ("hear", ANSWER_1), "0 A 0 0 0 - 2"),
    Step("one", ("hear", ANSWER_2), "0 A 0 0 0 - 2"),
    Step("two", ("hear", DIRECT_1), "0 A 0 0 0 - 2"),
    Step("one", ("hear", DIRECT_2), "0 A 0 0 0 - 2"),
)
BOTH_ASK_PARTS = {0: "Both ask", 2: "Both are asked", 4: "Both answer", 8: "Lists, as data"}

# Not drawn, but what the chart says of a scanner that asks alone rests on it.
ONE_ASKS = (
    Step("one", ("ask", 1, 0), "0 - 0 0 30 - 1", REQUEST_1),
    Step("two", ("hear", REQUEST_1), "0 A 1 0 0 - 1"),
    Step("two", ("ask", 2, 0), "0 - 0 0 30 - 2", ANSWER_2),
    Step("one", ("hear", ANSWER_2), "0 A 2 0 0 - 2"),
)


# A tablet whose three radios are named beforehand joins by the second of them. A reply goes to the radio
# that it answers, what our own side asks for to the first one.
EARLY = bench.data(AP, RADIOS[2])
TABLET_JOINS = (
    Step("site", ("links", RADIOS), "0 - 0 0 0 - 1"),
    Step("site", ("hear", EARLY), "0 D 0 0 26 - 1",
         bench.management(bench.DEAUTHENTICATION, RADIOS[2], AP, bench.number(7), third=AP)),
    Step("site", ("hear", authentication(AP, RADIOS[1], 1)), "0 A 1 0 0 - 1"),
    Step("site", ("ask", 2, 0), "0 - 0 0 30 - 2", authentication(RADIOS[0], AP, 2)),
    Step("site", ("hear", bench.association_request(AP, RADIOS[1])), "0 A 5 0 0 - 2"),
    Step("site", ("ask", 7, 0), "0 - 0 0 30 - 2", bench.association_response(RADIOS[0], AP)),
    Step("site", ("ask", 10, 1), "0 - 0 0 0 J 4"),
    Step("site", ("hear", bench.data(AP, RADIOS[0])), "0 A 0 0 0 - 4"),
    Step("site", ("hear", EARLY), "0 A 0 0 0 - 4"),
)
TABLET_PARTS = {0: "Named", 2: "Joined once", 7: "Data"}

# Not drawn, but what the chart says of a farewell rests on it: by one radio it is the tablet's, the clock
# leaves the record, and only without links is it freed.
TABLET_LEAVES = TABLET_JOINS + (
    Step("site", ("hear", bench.deauthentication(AP, RADIOS[2])), "0 A 3 3 0 L 1"),
    Step("site", ("clock", 65535), "0 - 0 0 0 - 0"),
    Step("site", ("hear", EARLY), "0 D 0 0 26 - 1", TABLET_JOINS[1].sent),
)


def record(step):
    """The bench record of a step; a primitive is about the other side."""
    kind, *rest = step.event
    if kind == "ask":
        return bench.primitive(rest[0], PEER[step.side], rest[1])
    if kind == "links":
        return bench.links(PEER[step.side], rest[0])
    return bench.frame(rest[0]) if kind == "hear" else bench.clock(rest[0])


def bench_input(scene, side):
    """The bench input of one side's steps."""
    rule = scene.rule if side == "ap" else ()
    network = NETWORK if ROLE[side] == bench.AD_HOC else None
    return b"".join([bench.settings(ROLE[side], OWN[side], 0, 100, 100, *rule, network=network)]
                    + [record(step) for step in scene.steps if step.side == side])


# Each scene by its name, from the empty table on.
SCENES = {"join": Scene(JOIN), "comeback 0": Scene(AUTHENTICATED + COMEBACK_0),
          "comeback 5": Scene(AUTHENTICATED + COMEBACK_5),
          "no comeback": Scene(AUTHENTICATED + NO_COMEBACK),
          "thrown out": Scene(JOINED + THROWN_OUT, (1, 0)),
          "asked first": Scene(JOIN + ASKED_FIRST, (2, 1)),
          "unanswered": Scene(JOINED + UNANSWERED, (2, 1)),
          "both ask": Scene(BOTH_ASK), "one asks": Scene(ONE_ASKS),
          "tablet": Scene(TABLET_LEAVES)}
