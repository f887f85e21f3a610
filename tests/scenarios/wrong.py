"""Scenarios at fault, each with the line at fault and what the tool has to say of it."""

START = ["ap own=02:00:00:00:00:01", "name p = 02:00:00:00:00:0a", "name s-1..3 = 02:00:00:00:01:01"]
RULE = "a name has a letter first, then letters, digits, '-' and '_'"

# The faulty line is the fourth one, behind START.
LINES = [
    ("fram data from=p", "'fram' is no word to begin a line: did you mean 'frame'?"),
    ("\x1b[2J", "'\\x1b[2J' is no word to begin a line: "
     "one of name, ap, station, ad-hoc, settings, frame, prim, links, clock, expect"),
    ("reboot", "'reboot' is no word to begin a line: "
     "one of name, ap, station, ad-hoc, settings, frame, prim, links, clock, expect"),
    ("ap", "ap needs own=ADDRESS, our own address"),
    ("frame", "frame needs a word for its kind, as auth-request, or raw and octets"),
    ("frame auth-requst from=p", "'auth-requst' is no frame: did you mean 'auth-request'?"),
    ("frame auth-request", "auth-request needs from=ADDRESS"),
    ("frame reassoc-request from=p", "reassoc-request needs current-ap=ADDRESS"),
    ("frame auth-request from", "'from' is no field: name=value, without blanks around '='"),
    ("frame auth-request from= p", "from has no value: from=.. without blanks around '='"),
    ("frame auth-request from=p from=p", "from is given twice: once is enough"),
    ("frame auth-request from=p statsu=1",
     "'statsu' is no field of auth-request: did you mean 'status'?"),
    ("frame ack from=p", "'from' is no field of ack: one of "
     "to, body, version, flags, to-ds, from-ds, duration, length"),
    ("frame data from=p reason=3", "'reason' is no field of data: one of "
     "from, to, body, version, flags, to-ds, from-ds, duration, length, third, sequence"),
    ("frame public-action from=p category=5", "'category' is no field of public-action: one of "
     "from, to, body, version, flags, to-ds, from-ds, duration, length, third, sequence"),
    ("frame data from=p category=4", "'category' is no field of data: one of "
     "from, to, body, version, flags, to-ds, from-ds, duration, length, third, sequence"),
    ("frame action from=p category=256", "category: 256 does not fit: 0 to 255"),
    ("frame deauth from=p reason=65536", "reason: 65536 does not fit: 0 to 65535"),
    ("frame deauth from=p reason=-1",
     "reason: '-1' is no number: decimal as 17, or hexadecimal as 0x11"),
    ("frame deauth from=p reason=three",
     "reason: 'three' is no number: decimal as 17, or hexadecimal as 0x11"),
    ("frame assoc-response from=p aid=16384", "aid: 16384 does not fit: 0 to 16383"),
    ("frame assoc-response from=p aid=1 aid-field=1",
     "aid and aid-field are one field: give one of them"),
    ("frame assoc-response from=p comeback=4294967296",
     "comeback: 4294967296 does not fit: 0 to 4294967295"),
    ("frame assoc-response from=p elements=380", "elements: '380' is not octets: "
     "two hexadecimal digits each, as 38 05, 38:05, 0x38 or 3805, or 00*9 for nine of them"),
    ("frame data from=p version=4", "version: 4 does not fit: 0 to 3"),
    ("frame data from=p to-ds=2", "to-ds: 2 does not fit: 0 to 1"),
    ("frame data from=p flags=1",
     "flags: the two lowest bits are to-ds and from-ds: give those by name"),
    ("frame data from=p flags=0x100", "flags: 0x100 does not fit: 0 to 252"),
    ("frame data from=p length=4097", "length: 4097 does not fit: 0 to 4096"),
    ("frame data from=p body=00*4096",
     "the frame has 4120 octets: at most 4096 can be given"),
    ("frame data from=q",
     "from: no address has the name 'q': 'name q = ADDRESS' gives one"),
    ("frame data from=broadcas",
     "from: no address has the name 'broadcas': did you mean 'broadcast'?"),
    ("frame data from=02:00:00:00:00", "from: '02:00:00:00:00' is no address: six octets, "
     "as 02:00:00:00:00:0a, 02-00-00-00-00-0a or 0200.0000.000a"),
    ("frame data from=s-1..4", "from: no address has the name 's-4': 'name s-4 = ADDRESS' gives one"),
    ("frame data from=s-3..1", "from: 's-3..1' is no range: "
     "the second number is the last one, at most 256 in all"),
    ("frame data from=s-1..2 to=s-2..3", "from and to are both ranges: one range in a line"),
    ("frame raw 0g", "raw: '0g' is not octets: two hexadecimal digits each, as 38 05, 38:05, "
     "0x38 or 3805, or 00*9 for nine of them"),
    ("frame raw 00*4097", "raw, times: 4097 does not fit: 0 to 4096"),
    ("frame raw 00*4000 11*97", "raw: more than the 4096 octets that a frame can have"),
    ("prim 2", "a prim line is: prim NUMBER|WORD ADDRESS, and the code by its name"),
    ("prim 256 p", "primitive: 256 does not fit: 0 to 255"),
    ("prim respond-asociate p", "'respond-asociate' is no primitive: did you mean 'respond-associate'?"),
    ("prim 2 p reason=0", "the code of primitive respond-authenticate is not called reason: status=.."),
    ("prim disassociate p status=0",
     "the code of primitive disassociate is not called status: reason=.."),
    ("prim report p status=1", "the code of primitive report is not called status: acknowledged=.."),
    ("prim 4 p status=0", "the code of primitive associate is not called status: code=.."),
    ("prim 11 p status=0", "the code of primitive query is not called status: code=.."),
    ("prim 12 p status=0", "the code of primitive 12 is not called status: code=.."),
    ("prim querry p", "'querry' is no primitive: did you mean 'query'?"),
    ("frame sa-query-request id=1", "sa-query-request needs from=ADDRESS"),
    ("frame sa-query-response from=p id=65536", "id: 65536 does not fit: 0 to 65535"),
    ("frame sa-query from=p", "'sa-query' is no frame: did you mean 'sa-query-request' or 'sa-query-response'?"),
    ("frame sa-query-request from=p category=8", "'category' is no field of sa-query-request: one of "
     "from, to, id, body, version, flags, to-ds, from-ds, duration, length, third, sequence"),
    ("frame action from=p id=1", "'id' is no field of action: one of "
     "from, to, category, body, version, flags, to-ds, from-ds, duration, length, third, sequence"),
    ("prim 2 p status=0 code=0", "status and code are one field: give one of them"),
    ("prim 2 p status=70000", "status: 70000 does not fit: 0 to 65535"),
    ("prim 2 p colour=1", "'colour' is no field of primitive respond-authenticate: one of status, code"),
    ("prim 2 p 0", "'0' is no field: name=value, without blanks around '='"),
    ("clock", "a clock line is: clock TIME, as clock 100 for 100 TU, clock 2s or clock 500ms"),
    ("clock 1 2", "a clock line is: clock TIME, as clock 100 for 100 TU, clock 2s or clock 500ms"),
    ("clock 4294967296", "clock: 4294967296 does not fit: at most 4294967295 TU, some 50 days"),
    ("clock 1222h", "clock: 1222h does not fit: at most 4294967295 TU, some 50 days"),
    ("clock 1us", "clock: 1us is less than one TU, which is 1,024 us"),
    ("clock 0x100000000", "clock: 0x100000000 does not fit: 0 to 4294967295"),
    ("clock " + "9" * 5000, "clock: a time of 5000 signs does not fit: at most 4294967295 TU"),
    ("clock 1.5", "clock: '1.5' is no time: whole TU as 100, or with a unit as 2s, 500ms, 1.5min, 1h"),
    ("name q", "a name line is: name NAME = ADDRESS"),
    ("name q = 02:00:00:00:00:0g",
     "'02:00:00:00:00:0g' is no address: six octets, "
     "as 02:00:00:00:00:0a, 02-00-00-00-00-0a or 0200.0000.000a"),
    ("name p = 02:00:00:00:00:0b",
     "'p' is the name of 02:00:00:00:00:0a already: choose another name"),
    ("name q = 02:00:00:00:00:0a",
     "02:00:00:00:00:0a has the name 'p' already: one name for each address"),
    ("name own = 02:00:00:00:00:0b", "'own' has its meaning already: choose another name"),
    ("name none = 02:00:00:00:00:0b", "'none' has its meaning already: choose another name"),
    ("links", "a links line is: links DEVICE ADDRESS .., or links DEVICE none"),
    ("links p", "a links line is: links DEVICE ADDRESS .., or links DEVICE none"),
    ("links s-1..2 p", "device: 's-1..2' is 2 addresses: one is wanted here"),
    ("links p q", "link: no address has the name 'q': 'name q = ADDRESS' gives one"),
    ("links p none s-1", "none stands alone: links DEVICE none"),
    ("links p s-1, s-2", "link: 's-1,' is no name, as scanner, and no range of names, as scanner-1..30: " + RULE),
    ("links p" + 86 * " s-1..3", "258 links: at most 255 can be given"),
    ("link p s-1", "'link' is no word to begin a line: did you mean 'links'?"),
    ("name 1q = 02:00:00:00:00:0b", f"name: '1q' can't be a name: {RULE}; a range of them is scanner-1..30"),
    ("name t-1..2 = ff:ff:ff:ff:ff:ff",
     "ff:ff:ff:ff:ff:ff has the name 'broadcast' already: one name for each address"),
    ("name t-1..300 = 02:00:00:00:03:00", "name: 't-1..300' is no range: "
     "the second number is the last one, at most 256 in all"),
]

# Whole scenarios, with the number of the line at fault.
WHOLE = [
    ("", 1, "no settings: the first line is ap, station, ad-hoc or settings"),
    ("# a comment\n\n", 2, "no settings: the first line is ap, station, ad-hoc or settings"),
    ("clock 1\n", 1, "'clock' comes before the settings: the first line is ap, station, ad-hoc or settings"),
    ("frame data from=own\n", 1,
     "'frame' comes before the settings: the first line is ap, station, ad-hoc or settings"),
    ("ap\n", 1, "ap needs own=ADDRESS, our own address"),
    ("station rsna=1\n", 1, "station needs own=ADDRESS, our own address"),
    ("ap own=02:00:00:00:00:01 role=1\n", 1,
     "'role' is no field of ap: one of own, rsna, timeouts, edition, protection, query-retry, "
     "query-maximum, network"),
    ("ap own=02:00:00:00:00:01 query-retry=65536\n", 1, "query-retry: 65536 does not fit: 0 to 65535"),
    ("ap own=02:00:00:00:00:01 query-max=9\n", 1,
     "'query-max' is no field of ap: did you mean 'query-maximum'?"),
    ("settings own=02:00:00:00:00:01\n", 1, "settings needs role=N: 1 is an AP, 2 a station, 3 ad hoc"),
    ("ad-hoc own=02:00:00:00:00:01\n", 1, "ad-hoc needs network=ADDRESS, the address of the network"),
    ("ad-hoc network=06:00:00:00:00:ad\n", 1, "ad-hoc needs own=ADDRESS, our own address"),
    ("adhoc own=02:00:00:00:00:01\n", 1, "'adhoc' is no word to begin a line: did you mean 'ad-hoc'?"),
    ("ad-hoc own=02:00:00:00:00:01 net=06:00:00:00:00:ad\n", 1,
     "'net' is no field of ad-hoc: did you mean 'network'?"),
    ("ad-hoc own=02:00:00:00:00:01 network=yard\n", 1,
     "network: no address has the name 'yard': 'name yard = ADDRESS' gives one"),
    ("name n-1..2 = 06:00:00:00:00:01\nad-hoc own=02:00:00:00:00:01 network=n-1..2\n", 2,
     "network: 'n-1..2' is 2 addresses: one is wanted here"),
    ("ap own=02:00:00:00:00:01 rsna=256\n", 1, "rsna: 256 does not fit: 0 to 255"),
    ("ap own=02:00:00:00:00:01 edition=256\n", 1, "edition: 256 does not fit: 0 to 255"),
    ("ap own=02:00:00:00:00:01 edition=2 edition=1\n", 1, "edition is given twice: once is enough"),
    ("ap own=02:00:00:00:00:01 protection=on\n", 1,
     "protection: 'on' is no number: decimal as 17, or hexadecimal as 0x11"),
    ("ap own=02:00:00:00:00:01 protect=1\n", 1,
     "'protect' is no field of ap: did you mean 'protection'?"),
    ("ap own=02:00:00:00:00:01 timeouts=100\n", 1,
     "timeouts are two numbers, authentication and association: timeouts=100,100"),
    ("ap own=02:00:00:00:00:01 timeouts=100,65536\n", 1, "timeouts: 65536 does not fit: 0 to 65535"),
    ("name a-1..2 = 02:00:00:00:00:01\nap own=a-1..2\n", 2,
     "own: 'a-1..2' is 2 addresses: one is wanted here"),
    ("name a-1..2 = fe:ff:ff:ff:ff:ff\nname b-1..9 = ff:ff:ff:ff:ff:fe\n", 2,
     "ff:ff:ff:ff:ff:ff has the name 'broadcast' already: one name for each address"),
]


def all_wrong():
    """Every faulty scenario: its text, the line at fault, and what is said of it."""
    at = len(START) + 1
    return [("\n".join(START + [line]) + "\n", at, said) for line, said in LINES] + WHOLE
