"""The words of events, told once and kept by all that they depend on: most events of a long scenario are like one before."""

import operator

from . import words
from .answers import read
from .rows import HOLD, NO_ROW, record

INDENT = "    "
MOST_KEPT = 8192
# Refusals that are told with other records than the peer's, each with the primitive that it is of; so is refusal 9 of any.
OF_OTHERS = {3: 12, 7: 4}
UNDER_WAY = 9
COUNTS_ON = {0, 1}


def below(number, text):
    """A text that has the event's number before its first line: the others stand below that."""
    return text.replace("\n", "\n" + " " * len(f"{INDENT}{number}  ")) if "\n" in text else text


def _alone(shape):
    """The table that holds a row of this shape alone, with signs for its times."""
    return {shape.address: record(shape.mark)} if shape.text else {}


def _filled(told, times):
    """What was told of a mark, with its times."""
    for sign, time in times:
        told = told.replace(sign, time)
    return told


def _near(pairs):
    """Whether lines on these rows could be one: the hold of one is that of the row before it or counts on from it, or neither has one."""
    holds = [int(hold) for _, (_, hold) in pairs]
    return not COUNTS_ON.isdisjoint(map(operator.sub, holds[1:], holds))


class Again:
    """Tells events under names and settings that stay, laid out for numbers of one width: where one of these changes, it begins anew.
    With a name for the peer, which then goes by it, the words are not laid out."""

    def __init__(self, say, peer=None):
        self._say, self._peer, self._settings, self._kept = say, peer, None, {}
        # The first number of the next width, and what stands between two lines of an event.
        self._wider, self._below = (1, "") if peer is None else (float("inf"), "\n")

    def begin(self, settings=None):
        """From here on there are other names, or these settings; with them events are numbered from 1."""
        self._kept.clear()
        self._settings = settings or self._settings
        if settings and self._peer is None:
            self._wider = 1

    def _widen(self, number):
        self._kept.clear()
        self._wider, self._below = 10 ** len(str(number)), below(number, "\n")

    def _names(self, event):
        """How addresses are said where this event is told."""
        if self._peer is None:
            return self._say
        return lambda address: self._peer if address == event.peer else self._say(address)

    def words(self, turn):
        """The words of an event; below the first line the others stand behind the width of its number."""
        event, number, outcome, before, after, changed = turn
        if number >= self._wider:
            self._widen(number)
        new, hold = after.get(event.peer, NO_ROW)
        old = new
        if outcome.refusal:
            if changed or outcome.refusal == UNDER_WAY or OF_OTHERS.get(outcome.refusal) == event.primitive:
                return self.anew(turn)
        elif changed:
            old = before.get(event.peer, NO_ROW)[0]
            if len(changed) > 1 or changed[0][0][0] is not old or changed[0][1][0] is not new:
                return self._changed(event, outcome, old, new, hold, changed)
        key, times = (getattr(event, outcome.told_by), outcome.like or outcome, old.mark, new.mark), outcome.times or new.times
        told = hold.join(self._kept.get(key) or self._own(key, event, old, new))
        return _filled(told, times) if times else told

    def anew(self, turn):
        """The same of the whole table, and not kept."""
        event, answer, before = read(turn)
        if answer.number >= self._wider:
            self._widen(answer.number)
        return self._below.join(words.tell(event, answer, before, self._settings, self._names(event)))

    def _changed(self, event, outcome, old, new, hold, changed):
        """The words of an event that changed the records of others, and the peer's or not."""
        peer = new.address or event.peer
        others = [pair for pair in changed if (pair[0][0].address or pair[1][0].address) != peer] if peer else changed
        key = getattr(event, outcome.told_by), outcome, old.mark, new.mark, len(others) > 0
        told = _filled(hold.join(self._kept.get(key) or self._own(key, event, old, new)), new.times)
        lines = self._others(others)
        return self._below.join([told, *lines] if told else lines)

    def _own(self, key, event, old, new):
        """What is told of an event but for the records of others, for the first time; it is told of the key and nothing else."""
        answer = key[1].answer(0, _alone(new), ())
        lines = words.own(event, answer, _alone(old), self._settings, self._names(event))
        return self._keep(key, self._below.join(lines or ([] if key[-1] is True else [words.NOTHING])))

    def _others(self, pairs):
        """What is told of the records of others; where lines could count on they are looked at together."""
        lines, kept = [], self._kept
        for (old, _), (new, hold) in pairs:
            marks = old.mark, new.mark
            told = hold.join(kept.get(marks) or self._change(*marks))
            lines.append(_filled(told, new.times) if new.times else told)
        return words.together(lines) if len(lines) > 2 and _near(pairs) else lines

    def _change(self, *marks):
        """What is told of the record of another, for the first time, with signs for its times."""
        return self._keep(marks, words.change(self._say, *(record(mark) if mark else None for mark in marks)))

    def _keep(self, key, told):
        """Keeps what was told, in the parts that stand before and behind the hold."""
        if len(self._kept) >= MOST_KEPT:
            self._kept.clear()
        self._kept[key] = parts = told.split(HOLD)
        return parts
