"""The table that `bench changes` shows, place by place: only places whose record changed are shown."""

import re

from .rows import DIGITS, MOST_KEPT, NO_ROW, after, odd, paired, row

PLACE, FREE, LINKS = "\n  place ", "\n  free ", "\n  links "
SHOWN = re.compile(r"\n  (place|free) ")


class Places:
    """Takes the places that blocks show; holds the rows by the addresses of devices and links. A dictionary of rows is not changed
    once it is here: it stays the table that there was."""

    def __init__(self):
        self.rows, self._linked = {}, False
        # Rows of one line that were met: those without a hold by their text, the shape of those with one by the text before it.
        self._bare, self._held = {}, {}

    def take(self, block):
        """What is said before the places of a block, and the pairs of rows that differ."""
        return not self._linked and self._stayed(block) or self._moved(block)

    def _stayed(self, block):
        """The same where all rows are of one line, of devices that were in their places before, as is most often so; else nothing."""
        said, *texts = block.split(PLACE)
        rows, changed, bare, held = self.rows.copy(), [], self._bare, self._held
        for text in texts:
            new = bare.get(text)
            if not new:
                start, _, hold = text.rpartition(" ")
                shape = held.get(start)
                new = (shape, hold) if shape and hold.isdecimal() and hold != "0" and len(hold) <= DIGITS else self._met(text, start)
                if not new:
                    return None
            shape = new[0]
            old = rows.get(shape.address)
            if not old or old[0].place != shape.place:
                return None
            rows[shape.address] = new
            changed.append((old, new))
        if FREE in said:
            return None
        self.rows = rows
        return said, changed

    def _met(self, text, start):
        """A row of one line that is met for the first time; none where there are more lines."""
        if "\n" in text:
            return None
        new = row(text)
        known, key, value = (self._bare, text, new) if new[1] == "0" else (self._held, start, new[0])
        if len(known) >= MOST_KEPT:
            known.clear()
        known[key] = value
        return new

    def _moved(self, block):
        """The same of any places: the pairs are by device then, not by place."""
        self._linked = self._linked or LINKS in block
        places = {known[0].place: known for known in self.rows.values()}
        said, *shown = SHOWN.split(block)
        changed = paired([_shown(places, *one) for one in zip(shown[::2], shown[1::2])])
        self.rows = after(self.rows, changed)
        return said, changed


def _shown(places, word, text):
    """The row that a place had, and the one that it has now."""
    if word == "place":
        new = row(text)
        return places.get(new[0].place, NO_ROW), new
    old = places.get(int(text)) if text.isdecimal() and len(text) < 3 else None
    if old is None:
        raise odd(f"  free {text}".partition("\n")[0])
    return old, NO_ROW
