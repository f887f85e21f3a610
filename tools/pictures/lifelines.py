"""Where the line of each peer is in a chart: one for each, or for all of one name with numbers, or one for all others."""

import re

NUMBERED = re.compile(r"^(.*?)([0-9]+)$")
OTHERS = "others"
MOST = 5
FIRST, APART = 380, 270


def _base(name):
    found = NUMBERED.match(name)
    return (found[1], int(found[2])) if found else (name, 0)


def _heard(rows):
    """The addresses that send a frame, or are sent one, with their names, as they come."""
    seen = {}
    for row in rows:
        for event, answer, _ in row.played:
            sender = event.peer if event.kind == "frame" else None
            receiver = answer.octets[4:10] if answer.octets and event.kind != "clock" else None
            for address in filter(None, (sender, receiver)):
                seen.setdefault(address, row.names.say(address))
    return seen


class Lifelines:
    """The lines by name, each with its place; those of one name with numbers stand side by side, in order."""

    def __init__(self, rows):
        seen = _heard(rows)
        bases = list(dict.fromkeys(_base(name)[0] for name in seen.values()))
        names = sorted(set(seen.values()), key=lambda name: (bases.index(_base(name)[0]), _base(name)[1], name))
        self._of = seen
        if len(names) > MOST:
            grouped = {}
            for name in names:
                grouped.setdefault(_base(name)[0], []).append(name)
            title = {base: self._title(group) for base, group in grouped.items()}
            self._of = {address: title[_base(name)[0]] for address, name in seen.items()}
            names = list(title.values())
        if len(names) > MOST:
            names = names[:MOST - 1] + [OTHERS]
        self.names = {name: FIRST + APART * (at + 1) for at, name in enumerate(names)}
        self.grouped = len(set(seen.values())) > len(names)

    @staticmethod
    def _title(group):
        first, last = group[0], group[-1]
        return first if first == last else f"{first}..{_base(last)[1]}"

    def at(self, address):
        """Where the line of an address is; that of the farthest where it has none."""
        name = self._of.get(address)
        return self.names.get(name, self.names.get(OTHERS, max(self.names.values(), default=FIRST + APART)))
