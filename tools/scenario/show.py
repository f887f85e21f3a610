"""The scenario told back: its own lines, and below each what the table answered."""

import itertools

from tools import bench_input as bench

from . import codes, expect, merge, words
from .again import INDENT, Again, below
from .answers import read
from .names import Names
from .values import visible

MOST_KEPT = 256
PROTECTION = {0: "management frames not protected", 1: "management frames protected"}


def _numbered(number, text):
    return f"{INDENT}{number}  {below(number, text)}"


def _settings(settings, again, say):
    """What the settings mean; where they are not the first ones, that the table begins anew."""
    role = codes.ROLES.get(settings.role, f"role {settings.role}")
    if settings.network is not None:
        role += f", network {say(settings.network)}"
    rsna = {0: "not required", 1: "required"}.get(settings.rsna, str(settings.rsna))
    text = (f"{INDENT}{'with an empty table again: ' if again else ''}{role}, RSNA {rsna}, timeouts: "
            f"authentication {settings.timeouts[0]} TU, association {settings.timeouts[1]} TU")
    if not any(value is not None for value in settings.rule):
        return text
    edition, protection, retry, maximum = (
        usual if value is None else value for value, usual in zip(settings.rule, bench.USUAL_RULE))
    text += f", edition {edition}, {PROTECTION.get(protection, f'protection {protection}')}"
    in_force = (settings.role, edition, protection) == (bench.ACCESS_POINT, 2, 1)
    if not in_force and settings.rule[2:] == [None, None]:
        return text
    return f"{text}, SA Query: retry {retry} TU, maximum {maximum} TU"


class Teller:
    """Tells line after line; holds the names and settings that are in force there, and what was not as expected."""

    def __init__(self, with_table=False):
        self.names, self.settings, self.with_table = Names(), None, with_table
        self.expected, self.failed = 0, []
        self._turns, self._again, self._each = [], Again(self.names.say), Again(self.names.say, "each")
        # What events of one line that changed no record came to.
        self._kept = {}

    def begin(self, line):
        """Takes what a line says of names and settings; the words for settings, else none."""
        if not line.named and not line.settings:
            return []
        self._again.begin(line.settings)
        self._each.begin(line.settings)
        self._kept.clear()
        if line.named:
            self.names.define(*line.named)
            return []
        again, self.settings = self.settings is not None, line.settings
        self.names.set_own(line.settings.own)
        return [_settings(line.settings, again, self.names.say)]

    def judge(self, line, turns):
        """What came in place of what a line expects, '' where it is met or expects nothing."""
        self._turns = turns or self._turns
        if not line.expect:
            return ""
        self.expected += 1
        came = expect.judge(line.expect, [read(turn) for turn in self._turns], self.names.say)
        if came:
            self.failed.append((line, came))
        return came

    def lines(self, lines, turns):
        """Some lines of the scenario, each with what is told below it; the turns are those of all of them."""
        told, turns, words_, plain, turn = [], iter(turns), self._again.words, not self.with_table, None
        for line in lines:
            _, text, events, _, _, remark, _ = line
            # Most lines are so, and need no more.
            if len(events) == 1 and plain and not remark and text.isprintable():
                turn = next(turns)
                told.append(f"{text}\n{INDENT}{turn[1]}  {words_(turn)}\n")
                continue
            self._turns, turn = [turn] if turn else self._turns, None
            if events and plain and not remark and text.isprintable():
                self._turns = list(itertools.islice(turns, len(events)))
                told.append("\n".join([text, *self._events(self._turns), ""]))
            else:
                told.append(self.line(line, list(itertools.islice(turns, len(events)))))
        self._turns = [turn] if turn else self._turns
        return told

    def line(self, line, turns):
        """A line of the scenario and what is told below it."""
        text = line.text if line.text.isprintable() else visible(line.text)
        text = "\n".join([text, *self._beside(line, turns)])
        came = self.judge(line, turns)
        return f"{text}\n{INDENT}NOT MET: {came}\n" if came else text + "\n"

    def _beside(self, line, turns):
        """What is told below a line of settings and events."""
        told = self.begin(line)
        if line.remark:
            told.append(INDENT + line.remark)
        return told + (self._events(turns) if len(turns) > 1 else [self._one(turn) for turn in turns])

    def ending(self):
        """How many expectations there were, and how many were met; nothing where there were none."""
        if not self.expected:
            return ""
        each = "1 expectation" if self.expected == 1 else f"{self.expected} expectations"
        lines = ", ".join(str(line.at) for line, _ in self.failed)
        return f"{each}, " + (f"{len(self.failed)} not met: line {lines}\n" if self.failed else "all met\n")

    def _events(self, turns):
        """What the events of one line did; those that did alike are told once."""
        if self.with_table:
            return [self._one(turn) for turn in turns]
        if turns[0][0].kind == "clock":
            text = "\n".join(words.steps([read(turn) for turn in turns], self.names.say))
            return [_numbered(f"{turns[0][1]}..{turns[-1][1]}", text)]
        return [_numbered(f"{turns[at][1]}..{turns[at + count - 1][1]}", text) if text else self._one(turns[at])
                for at, count, text in self._runs(turns)]

    def _runs(self, turns):
        """The events of a line that did alike, as the place of the first, how many they are, and what is told of them; of one
        alone nothing. Where they changed no record it is kept, by the very events and rows, which are kept with it."""
        events, _, outcomes, rows, after, _ = zip(*turns)
        if rows[0] is not after[-1]:
            return self._alike(turns)
        key = id(rows[0]), tuple(map(id, events)), outcomes
        kept = self._kept.get(key)
        if kept is None:
            if len(self._kept) >= MOST_KEPT:
                self._kept.clear()
            kept = self._kept[key] = self._alike(turns), rows[0], events
        return kept[0]

    def _alike(self, turns):
        """The same of events that are looked at one by one."""
        texts, found = tuple([self._each.words(turn) for turn in turns]), []
        for at, count in merge.runs(texts):
            last, text = at + count - 1, ""
            if count > 1:
                peers = f"{self.names.say(turns[at][0].peer)} to {self.names.say(turns[last][0].peer)}"
                text = f"{count} events, one for each of {peers}:\n{merge.joined(texts[at], texts[last])}"
            found.append((at, count, text))
        return found

    def _one(self, turn):
        """An event with its number, and with the table after it where that is wanted."""
        number = turn[1]
        text = f"{INDENT}{number}  {self._again.words(turn)}"
        if self.with_table:
            text += below(number, "\n" + "\n".join(words.table(read(turn)[1], self.names.say)))
        return text
