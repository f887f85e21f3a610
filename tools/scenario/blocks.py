"""Cuts what `bench changes` prints into blocks, one an event, as it comes, and holds the table that its places make."""

import itertools
import re

from .answers import Outcome, changed_of
from .places import FREE, PLACE, Places
from .rows import MOST_KEPT, odd, records

NEXT = re.compile(r"\n(?=[^ ])")


class Changes:
    """Takes the lines of `bench changes`; holds the table of the last event."""

    def __init__(self):
        self.number, self._text = 0, ""
        # What events came to, by what was said of them.
        self._places, self._outcomes = Places(), {}

    def take(self, text, events, last=False):
        """The turns of these events whose blocks are whole by now, the last one when the text has ended. A turn is the event, its number
        and outcome, the rows before and after it, and the pairs of these that differ."""
        *blocks, self._text = NEXT.split(self._text + text)
        if last:
            blocks += self._rest()
        made, places, known, number = [], self._places, self._outcomes, self.number
        rows = places.rows
        self.number += len(blocks)
        for block, event in zip(blocks, events):
            number += 1
            head, _, said = block.partition(" ")
            if head != str(number):
                raise odd(block.partition("\n")[0])
            outcome = known.get(said)
            if outcome:
                made.append((event, number, outcome, rows, rows, ()))
                continue
            before, changed = rows, ()
            if PLACE in said or FREE in said:
                said, changed = places.take(said)
                rows = places.rows
            made.append((event, number, known.get(said) or self._outcome(number, said), before, rows, changed))
        return made

    def _rest(self):
        """The last block, if any; a line without an end is none."""
        text, self._text = self._text, ""
        if text and text[-1] != "\n":
            raise odd(text.rpartition("\n")[2])
        return [text[:-1]] if text else []

    def _outcome(self, number, said):
        """What an event came to, for the first time."""
        if len(self._outcomes) >= MOST_KEPT:
            self._outcomes.clear()
        return self._outcomes.setdefault(said, Outcome(number, said))


def answers(text):
    """The answers of all that `bench changes` printed."""
    made, table = [], {}
    for _, number, outcome, _, rows, changed in Changes().take(text, itertools.repeat(None), True):
        table = records(rows) if changed else table
        made.append(outcome.answer(number, table, changed_of(changed)))
    return made
