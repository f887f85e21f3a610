"""Why events are refused, discarded or do nothing: each reason in words, played on a program."""

from tools.scenario import answers

from .playing import lines_of, told

NAMES = "name p = 02:00:00:00:00:0a\nname q = 02:00:00:00:00:0b\nname r = 02:00:00:00:00:0c\nname net = 06:00:00:00:00:ad\n"
AP, STATION, AD_HOC = (f"{role} own=02:00:00:00:00:01" for role in ("ap", "station", "ad-hoc"))
IN_NETWORK = f"{AD_HOC} network=net"
# What comes before the event that is looked at.
KNOWN = "frame auth-request from=p\nprim respond-authenticate p\n"
JOINED = KNOWN + "frame assoc-request from=p\nprim respond-associate p\nprim report p\n"
WE_KNOW = "prim authenticate p\nframe auth-response from=p\n"
WE_ASK = WE_KNOW + "prim associate p\n"
TIME = "not 1 to 65,535 TU"
# Settings, lines before, an event, the number of its refusal, and what stands behind 'because'.
REFUSED = [
    (f"{AP} rsna=2", "", "clock 1", 2, "rsna is 2, not 0 or 1"),
    (f"{AP} timeouts=0,1", "", "clock 1", 2, f"the timeout of an authentication is 0, {TIME}"),
    (f"{AP} timeouts=1,0", "", "frame ack", 2, f"the timeout of an association is 0, {TIME}"),
    ("ap own=broadcast", "", "clock 1", 2, "own is ff:ff:ff:ff:ff:ff, a group address"),
    ("ap own=00:00:00:00:00:00", "", "clock 1", 2, "own is 00:00:00:00:00:00, all zero"),
    ("settings role=3 own=02:00:00:00:00:01", "", "clock 1", 2, "an ad hoc network has an address, and none is given"),
    (f"{AD_HOC} network=broadcast", "", "clock 1", 2, "network is ff:ff:ff:ff:ff:ff, a group address"),
    (f"{IN_NETWORK} rsna=2", "", "frame ack", 2, "rsna is 2, not 0 or 1"),
    ("settings role=4 own=02:00:00:00:00:01 network=net", "", "clock 1", 2, "role is 4, not 1, 2 or 3"),
    (f"{AP} edition=0", "", "clock 1", 2, "edition is 0, not 1 or 2"),
    (f"{AP} edition=3 protection=1", "", "frame ack", 2, "edition is 3, not 1 or 2"),
    (f"{AP} protection=2", "", "clock 1", 2, "protection is 2, not 0 or 1"),
    (f"{AP} query-retry=0", "", "clock 1", 2, f"query-retry is 0, {TIME}"),
    (f"{AP} query-maximum=0", "", "frame ack", 2, f"query-maximum is 0, {TIME}"),
    (f"{AP} rsna=2", "", "links own none", 2, "rsna is 2, not 0 or 1"),
    (AP, "", "clock 0", 3, "a clock step is at least 1 TU"),
    (AP, "", "prim 12 p", 3, "12 is no primitive, links are named by a links line"),
    (AP, "", "prim 255 p", 3, "255 is no primitive"),
    (AP, "", "prim query p code=1", 3, "the code is 1, and this primitive takes 0"),
    (AP, "", "prim report p acknowledged=2", 3, "the code is 2, and this primitive takes 0 or 1"),
    (AP, "", "prim deauthenticate p reason=0", 3, "the code is 0, and this primitive takes any but 0"),
    (IN_NETWORK, "", "prim set-protection p code=1", 3, "the code is 1, and this primitive takes 0"),
    (AP, "", "prim deauthenticate broadcast", 3, "broadcast is a group address"),
    (AP, "", "prim deauthenticate own", 3, "the peer is our own address"),
    (AP, "links p q\n", "prim deauthenticate q", 3, "q is a link of p, and a primitive names the device"),
    (AP, "", "links p own", 3, "own is our own address"), (AP, "", "links own none", 3, "own is our own address"),
    (AP, "", "links p p", 3, "p is given twice"), (AP, "", "links p broadcast", 3, "broadcast is a group address"),
    (AP, "links p q\n", "links r p", 3, "p is in use as a peer"), (AP, "links p q\n", "links r q", 3, "q is in use by p"),
    (AP, "links p q\n", "links q none", 3, "q is in use by p"),
    (AP, "", "links p" + " q" * 5, 3, "5 links are named, and a device has four at most"),
    (AP, "", "frame raw b0 00*8", 3, "9 octets are no frame: the shortest has 10"),
    (AP, "", "frame raw b4 00*12", 3, "it has 13 octets, and RTS has at least 16"),
    (AP, "", "frame deauth from=p length=25", 3, "it has 25 octets, and Deauthentication has at least 26"),
    (AP, "", "frame reassoc-request from=p current-ap=q length=33", 3,
     "it has 33 octets, and Reassociation Request has at least 34"),
    (AP, "", "frame data from=00:00:00:00:00:00", 3, "Address 2 is 00:00:00:00:00:00, all zero"),
    (AP, "", "frame data from=own", 3, "Address 2 is our own address"),
    (AP, "", "frame assoc-response from=p elements=38050300", 3, "its elements do not end with the frame, at 34 octets"),
    (AP, "", "frame reassoc-response from=p to=broadcast length=31", 3,
     "its elements do not end with the frame, at 31 octets"),
    (AP, "", "frame data from=p to=q", 4, "Address 1 is q, neither our own nor a group address"),
    (AP, "", "prim authenticate p", 5, "this primitive is not for an AP"),
    (STATION, "", "prim query p", 5, "this primitive is not for a station"),
    (STATION, "", "links p none", 5, "this primitive is not for a station"),
    (IN_NETWORK, "", "prim associate p", 5, "this primitive is not for an ad hoc network"),
    (STATION, "name f-1..32 = 02:00:00:00:09:01\nprim authenticate f-1..32\n", "prim authenticate p", 6,
     "all 32 places are taken, and p needs one"),
    (f"{AD_HOC} network=own", "", "prim respond-authenticate p", 7, "p has not asked for authentication, it is in State 1"),
    (AP, "", "prim query p", 7, "no SA Query request to p is due, it is in State 1"),
    (AP, JOINED, "prim report p", 7, "no response to p awaits its acknowledgement, it is in State 4"),
    (AP, KNOWN, "prim set-protection p", 7, "p is not in State 3 or 4, it is in State 2"),
    (AP, JOINED, "links p q", 7, "p is not in State 1, it is in State 4"),
    (STATION, WE_ASK + "frame assoc-response from=p\n", "prim associate q", 7,
     "we are associated with p: reassociate instead"),
    (STATION, WE_ASK + "frame assoc-response from=p status=17\nclock 954\n", "prim associate p", 8, "the hold on p is 1,000 TU"),
    (STATION, WE_ASK, "prim reassociate q", 9, "association with p is under way"),
    (STATION, WE_KNOW + "prim authenticate p\n", "prim associate p", 9, "authentication with p is under way"),
]
# The same without a refusal: what is said of the frame in all.
OTHERS = [
    (AP, "", "frame raw 70 00*30", "discarded because a frame of type 0 (management), subtype 7 has no class"),
    (AP, "", "frame raw 0c 00*30", "discarded because a frame of type 3 (extension), subtype 0 has no class"),
    (AP, "", "frame data from=p version=2", "discarded because its version is 2, not 0"),
    (AP, KNOWN, "frame qos-data from=p", "discarded because a class 3 frame does not pass while p is in State 2"),
    (AP, "", "frame disassoc from=p", "discarded because a class 2 frame does not pass while p is in State 1"),
    (AP, "", "frame public-action from=p flags=0x40", "discarded because a class 3 frame does not pass while p is in State 1"),
    (AP, "", "frame assoc-request from=p to=broadcast",
     "discarded because a class 2 frame does not pass while p is in State 1"),
    (AP, JOINED, "frame assoc-request from=p to=broadcast",
     "discarded because Address 1 is broadcast, and such a frame is for one receiver alone"),
    (IN_NETWORK, "", "frame data from=p from-ds=1",
     "discarded because only class 1 passes in an ad hoc network, and p is in State 1"),
]
NOTHING = [
    (AP, "", "frame ack", "it names no peer"), (AP, "", "frame beacon from=p", "Beacon asks nothing of the table"),
    (AP, JOINED, "frame data from=p", "Data asks nothing of the table"),
    (AP, "", "frame deauth from=p", "p is in State 1, so there is nothing to end"),
    (AP, KNOWN, "frame disassoc from=p", "p is in State 2, so there is nothing to end"),
    (AP, JOINED, "frame assoc-response from=p", "such an answer is for a station"),
    (AP, "", "frame auth-response from=p", "transaction 2 answers nothing here"),
    (AP, "", "frame auth-request from=p transaction=3", "transaction 3 answers nothing here"),
    (STATION, "", "frame auth-request from=p", "such a request is for an AP"),
    (STATION, WE_KNOW, "frame assoc-request from=p", "such a request is for an AP"),
    (STATION, "", "frame auth-response from=p", "no authentication with p is under way"),
    (STATION, "prim authenticate p\n", "frame auth-response from=p algorithm=1", "its algorithm is 1, and ours is 0"),
    (STATION, WE_ASK, "frame assoc-response from=p aid=2008", "AID 2008 is outside 1 to 2007"),
    (STATION, WE_ASK, "frame reassoc-response from=p", "no reassociation with p is under way"),
    (AP, JOINED, "frame sa-query-response from=p id=3", "no query to p runs"),
    (f"{AP} edition=2 protection=1", JOINED + "frame assoc-request from=p\n", "frame sa-query-response from=p id=3",
     "its identifier is 3, and that of the query is 1"),
    (AP, JOINED, "frame sa-query-request from=p to=broadcast", "a query is sent to our own address alone"),
    (f"{AP} rsna=1", JOINED, "frame sa-query-request from=p", "p is in State 3, and a query counts in State 4"),
    (AP, JOINED, "frame sa-query-request from=p length=27", "Action asks nothing of the table"),
]
# The answer that a frame ack gets, with reasons that no program may print beside it, and what is told of each.
ODD = {"1 0 A 0 0 0 - 0\n  because refusal-3 0\n": "answer and reason differ at event 1: refusal-3",
       "1 0 A 0 0 0 - 0\n  because no-class 0\n": "answer and reason differ at event 1: no-class",
       "1 3 - 0 0 0 - 0\n": "answer and reason differ at event 1: none",
       "1 3 - 0 0 0 - 0\n  because refusal-8 1\n": "answer and reason differ at event 1: refusal-8",
       "1 0 D 0 0 0 - 0\n  because nothing-to-do 0\n": "answer and reason differ at event 1: nothing-to-do",
       **{f"1 0 A 0 0 0 - 0\n{line}\n": f"printed '{line}', which is no line of its changes"
          for line in ("  because why 0", "  because none 0", "  because nothing-to-do", "  because nothing-to-do 0 0",
                       "  because nothing-to-do -1", " because nothing-to-do 0", "  because  nothing-to-do 0")},
       "1 0 A 0 0 0 - 0\n  because nothing-to-do 0\n  octets 00\n": "printed '  octets 00', which is no line of its changes",
       "2 0 A 0 0 0 - 0\n  because nothing-to-do 0\n": "printed '2 0 A 0 0 0 - 0', which is no line of its changes",
       "": "gave 0 answers to 1 events"}


def rows():
    """Every row: settings, lines before, event, and the first line that is told of it."""
    for settings, before, line, number, why in REFUSED:
        yield settings, before, line, f"refused {number} because {why}; nothing changes"
    yield from OTHERS
    for settings, before, line, why in NOTHING:
        yield settings, before, line, f"admitted, with nothing to do because {why}"


def odd():
    """Reasons that do not fit the answer are a fault of the program."""
    found = []
    for printed, said in ODD.items():
        try:
            told(lines_of(f"{AP}\nframe ack\n"), ["sh", "-c", 'cat >/dev/null; printf %s "$0"', printed])
            found.append(f"taken: {printed}")
        except answers.BenchFault as fault:
            found += [] if said in str(fault) else [str(fault)]
    return found


def faults(changes):
    found = []
    for settings, before, line, said in rows():
        text = told(lines_of(f"{NAMES}{settings}\n{before}{line}\n"), changes)
        got = text.rpartition(f"\n{line}\n")[2]
        if f"  {said}\n" not in got:
            found.append(f"{line}: {got}")
    return found + odd()
