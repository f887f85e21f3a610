"""Reads the lines of a scenario into the events that they make, the settings and the expectations."""

import collections

from tools import bench_input as bench

from . import expect, frame_words, frames, primitives
from .names import Names
from .suggest import one_of
from .values import LONGEST_STEP, Fault, cut, duration, microseconds, number, octets, steps

# An event: its record, kind ('frame', 'prim', 'links', 'clock'), the peer it names, the primitive's number,
# the octets of a frame, whether the scenario gives these by themselves, and what its words depend on, where it is done and where it has
# nothing to do; where it is refused that is the record.
Event = collections.namedtuple("Event", "record kind peer primitive frame raw gist idle")
# A line with its number, its events, the settings, the expectation and the name that it gives, and a remark of the tool.
Line = collections.namedtuple("Line", "at text events settings expect remark named",
                              defaults=((), None, None, "", None))
# The rule, edition, protection and a query's two times, has None where they are not given, and so is a
# network's address; the record is the bench's.
Settings = collections.namedtuple("Settings", "role own rsna timeouts rule network record")

ROLES = {"ap": bench.ACCESS_POINT, "station": bench.STATION, "ad-hoc": bench.AD_HOC}
# The words of the rule, with the highest number that each field can hold.
RULE = {"edition": 0xFF, "protection": 0xFF, "query-retry": 0xFFFF, "query-maximum": 0xFFFF}
SETTINGS = ["own", "rsna", "timeouts", *RULE, "network"]
FIRST = "ap, station, ad-hoc or settings"
EVENTS = ("frame", "prim", "links", "clock")
VERBS = ("name", *ROLES, "settings", *EVENTS, "expect")
MOST_LINKS = 255
MOST_KEPT = 4096
# The first octets of data frames: of what follows in these nothing is told.
DATA = {bench.frame_control(bench.DATA, subtype)[:1] for subtype in range(16)}
SAMPLE = "02:00:00:00:00:0a"
# How no record begins; with how many octets one is told of a frame that has nothing to do: of its elements nothing is.
NO_RECORD, TOLD = b"\0", bench.HEAD + 30


def _field(word, known, what):
    """One field of a line: its name as it is known, and its value."""
    name, equals, value = word.partition("=")
    if not equals:
        raise Fault(f"{cut(word)} is no field: name=value, without blanks around '='")
    name = one_of(name, known, f"field of {what}", guess=name.lower() not in frame_words.FIELDS)
    if not value:
        raise Fault(f"{name} has no value: {name}=.. without blanks around '='")
    return name, value


def pairs(words, known, what):
    """The fields of a line, each name=value once; octets may have blanks between them."""
    given, last = {}, None
    for word in words:
        if "=" not in word and last in ("elements", "body"):
            given[last] += " " + word
            continue
        last, value = _field(word, known, what)
        if last in given:
            raise Fault(f"{last} is given twice: once is enough")
        given[last] = value
    return given


def _own(record, kind, peer, primitive, gist):
    """An event that is no frame."""
    return Event(record, kind, peer, primitive, b"", False, gist, record)


class Reader:
    """Takes line after line; holds the names so far and the settings that are in force."""

    def __init__(self):
        self.names, self.settings, self.events = Names(), None, False
        # What was made of a line that may come again, as long as names and settings stay.
        self._kept = {}
        self._takes = {"frame": self._frame, "prim": self._prim, "links": self._links,
                       "clock": self._clock}

    def line(self, text, at=0):
        """A line with its events, none, one, or one for each address of a range, its settings or what it expects."""
        said = text.split("#", 1)[0].strip()
        kept = self._kept.get(said)
        if kept:
            return Line(at, text.rstrip(), *kept)
        words = said.split()
        if not words:
            return Line(at, text.rstrip())
        verb = one_of(words[0], VERBS, "word to begin a line")
        if verb in ROLES or verb == "settings":
            return self._begun(verb, words[1:], at, text)
        if verb == "name":
            return Line(at, text.rstrip(), named=self._name(words[1:]))
        return self._made(verb, words[1:], at, text, said)

    def _made(self, verb, words, at, text, said):
        """A line that has events, or says what is expected of them."""
        if self.settings is None:
            raise Fault(f"'{verb}' comes before the settings: the first line is {FIRST}")
        if verb == "expect":
            if not self.events:
                raise Fault("expect stands below an event, and there is none since the settings")
            kept = (), None, expect.read(words, self), ""
        else:
            self.events = True
            made = self._takes[verb](words)
            kept = made if verb == "clock" else (made, None, None, "")
        if len(self._kept) >= MOST_KEPT:
            self._kept.clear()
        self._kept[said] = kept
        return Line(at, text.rstrip(), *kept)

    def _begun(self, verb, words, at, text):
        try:
            self.begin(self._settings(verb, words))
        except Fault:
            # The lines below are not blamed for it.
            own = self.settings.own if self.settings else bench.address(SAMPLE)
            self.begin(Settings(1, own, 0, [100, 100], [None] * 4, None, b""))
            self.events = True
            raise
        return Line(at, text.rstrip(), (), self.settings)

    def begin(self, settings):
        """From here on these settings are in force, and the table is empty."""
        self.settings, self.events = settings, False
        self.names.set_own(settings.own)
        self._kept.clear()

    def _name(self, words):
        name, equals, value = (part.strip() for part in " ".join(words).partition("="))
        self._kept.clear()
        try:
            if not (name and equals and value):
                raise Fault("a name line is: name NAME = ADDRESS")
            self.names.define(name, value)
            return name, value
        except Fault:
            self.names.lose(name)
            raise

    def _settings(self, verb, words):
        known = SETTINGS + ["role"] if verb == "settings" else SETTINGS
        given = pairs(words, known, verb)
        if verb == "settings" and "role" not in given:
            raise Fault("settings needs role=N: 1 is an AP, 2 a station, 3 ad hoc")
        role = ROLES.get(verb) or number(given["role"], "role", 255)
        if "own" not in given:
            raise Fault(f"{verb} needs own=ADDRESS, our own address")
        if verb == "ad-hoc" and "network" not in given:
            raise Fault("ad-hoc needs network=ADDRESS, the address of the network")
        own = self.single(given["own"], "own")
        rsna = number(given.get("rsna", "0"), "rsna", 255)
        times = given.get("timeouts", "100,100").split(",")
        if len(times) != 2:
            raise Fault("timeouts are two numbers, authentication and association: timeouts=100,100")
        times = [number(time, "timeouts", 0xFFFF) for time in times]
        rule = [number(given[name], name, highest) if name in given else None
                for name, highest in RULE.items()]
        self.names.set_own(own)  # so that network=own means this one
        network = self.single(given["network"], "network") if "network" in given else None
        return Settings(role, own, rsna, times, rule, network,
                        bench.settings(role, own, rsna, *times, *rule, network))

    fields = staticmethod(pairs)

    def single(self, text, what):
        found = self.names.find(text, what)
        if len(found) > 1:
            raise Fault(f"{what}: {cut(text)} is {len(found)} addresses: one is wanted here")
        return found[0]

    def values(self, given):
        """The values of a frame's fields, and which of them, if any, is several addresses."""
        values, wide = {}, []
        for name, text in given.items():
            field = frame_words.FIELDS[name]
            if field.kind == "address":
                values[name] = found = self.names.find(text, name)
                wide += [name] if len(found) > 1 else []
            elif field.kind == "octets":
                values[name] = octets(text, name)
            else:
                values[name] = number(text, name, field.highest)
        if len(wide) > 1:
            raise Fault(f"{wide[0]} and {wide[1]} are both ranges: one range in a line")
        return values, wide

    def _frame(self, words):
        if not words:
            raise Fault("frame needs a word for its kind, as auth-request, or raw and octets")
        if words[0].lower() == "raw":
            return [self._heard(octets(" ".join(words[1:]), "raw"), True)]
        row = frame_words.BY_WORD[one_of(words[0], frame_words.KNOWN, "frame", others=frame_words.FAMILIES)]
        values, wide = self.values(pairs(words[1:], frame_words.fields_of(row), row.word))
        made = []
        for at in range(len(values[wide[0]]) if wide else 1):
            given = {name: value[at % len(value)] if isinstance(value, list) else value
                     for name, value in values.items()}
            made.append(self._heard(frames.encode(row, frames.filled(row, given, self.settings))))
        return made

    @staticmethod
    def _heard(laid, raw=False):
        peer, record = laid[10:16] if frames.names_peer(laid) else None, bench.frame(laid)
        data = laid[:1] in DATA
        gist = record if raw else b"".join((NO_RECORD, peer or b"", laid[:2], b"" if data else laid[24:26]))
        return Event(record, "frame", peer, 0, laid, raw, gist, gist if data or raw else record[:TOLD])

    def _prim(self, words):
        if len(words) < 2:
            raise Fault("a prim line is: prim NUMBER|WORD ADDRESS, and the code by its name")
        row = primitives.find(words[0])
        peers = self.names.find(words[1], "peer")
        known = [row.code] if row.code == "code" else [row.code, "code"]
        for name in (word.partition("=")[0].lower() for word in words[2:]):
            primitives.takes(row, name)
        given = pairs(words[2:], known, f"primitive {row.word}")
        if len(given) > 1:
            raise Fault(f"{row.code} and code are one field: give one of them")
        text = given.get(row.code, given.get("code", str(row.default)))
        code = number(text, next(iter(given), row.code), 0xFFFF)
        return [_own(bench.primitive(row.number, peer, code), "prim", peer, row.number, (row.number, peer)) for peer in peers]

    def _links(self, words):
        if len(words) < 2:
            raise Fault("a links line is: links DEVICE ADDRESS .., or links DEVICE none")
        device = self.single(words[0], "device")
        links = self.several(words[1:], "links DEVICE none")
        if len(links) > MOST_LINKS:
            raise Fault(f"{len(links)} links: at most {MOST_LINKS} can be given")
        return [_own(bench.links(device, links), "links", device, 12, (12, device))]

    def several(self, words, form):
        """A list of links, one by one or as ranges; 'none' stands for no link."""
        if "none" in words and len(words) > 1:
            raise Fault(f"none stands alone: {form}")
        return [link for word in words if word != "none" for link in self.names.find(word, "link")]

    @staticmethod
    def _clock(words):
        """The steps of a clock line, and what is said of a time that is no whole TU or no single step."""
        if len(words) != 1:
            raise Fault("a clock line is: clock TIME, as clock 100 for 100 TU, clock 2s or clock 500ms")
        whole, over = duration(words[0])
        made = [_own(bench.clock(step), "clock", None, 0, "clock") for step in steps(whole)]
        said = "" if words[0].isdigit() else f"{words[0]} is {whole} TU"
        said += f"; {microseconds(over)} left over" if over else ""
        if len(made) > 1:
            said += f"{'; ' if said else ''}{len(made)} clock steps, of {LONGEST_STEP} TU at most"
        return made, None, None, said
