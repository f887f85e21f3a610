"""Addresses, their names, and ranges of names."""

import re

from tools import bench_input as bench

from . import suggest
from .values import Fault, cut

# Six octets in the three usual ways, or twelve digits in a row.
ADDRESS = re.compile(r"[0-9a-f]{2}(?:(?::[0-9a-f]{2}){5}|(?:-[0-9a-f]{2}){5}|(?:[0-9a-f]{2}){5})"
                     r"|[0-9a-f]{4}(?:\.[0-9a-f]{4}){2}", re.IGNORECASE)
BETWEEN = str.maketrans("", "", ":-.")
NAME = re.compile(r"[A-Za-z][A-Za-z0-9_-]*")
RANGE = re.compile(r"([A-Za-z](?:[A-Za-z0-9_-]*[A-Za-z_-])?)([0-9]{1,9})\.\.([0-9]{1,9})")
DIGITS = re.compile("[0-9]+")
RULE = "a name has a letter first, then letters, digits, '-' and '_'"
FORMS = "as 02:00:00:00:00:0a, 02-00-00-00-00-0a or 0200.0000.000a"
LONGEST_RANGE = 256
LONGEST_NAME = 40
# Names that have their meaning: two addresses, and no link at all.
TAKEN = ("own", "broadcast", "none")


def address(text):
    """Six octets of a text in any of the forms; None where it has none of them."""
    return bytes.fromhex(text.translate(BETWEEN)) if ADDRESS.fullmatch(text) else None


def members(text, what="name"):
    """The names of a range: scanner-1..3 is scanner-1, scanner-2, scanner-3; s-08..10 is s-08, s-09, s-10."""
    found = RANGE.fullmatch(text)
    if not found and (":" in text or text[:1].isdigit()):
        raise Fault(f"{what}: {cut(text)} is no address: six octets, {FORMS}")
    if not found:
        raise Fault(f"{what}: {cut(text)} is no name, as scanner, and no range of names, as scanner-1..30: {RULE}")
    first, last = int(found[2]), int(found[3])
    if not first <= last < first + LONGEST_RANGE:
        raise Fault(f"{what}: {cut(text)} is no range: the second number is the last one, at most "
                    f"{LONGEST_RANGE} in all")
    digits = len(found[2]) if found[2][0] == "0" else 1
    return [f"{found[1]}{n:0{digits}}" for n in range(first, last + 1)]


class Names:
    """Addresses by name and names by address."""

    def __init__(self):
        self._addresses = {"broadcast": bench.BROADCAST}
        self._names = {bench.BROADCAST: "broadcast"}
        # Names whose line was at fault: no other line is blamed for them.
        self._lost = set()

    def set_own(self, own):
        """Our own address is 'own'; where it has a name beside, that one is shown."""
        self._addresses["own"] = own

    def _give(self, name, given):
        if name in TAKEN:
            raise Fault(f"'{name}' has its meaning already: choose another name")
        if address(name):
            raise Fault(f"'{name}' reads as an address: choose another name")
        if len(name) > LONGEST_NAME:
            raise Fault(f"{cut(name)} is too long: a name has at most {LONGEST_NAME} signs")
        if name in self._addresses:
            taken = bench.address_text(self._addresses[name])
            raise Fault(f"'{name}' is the name of {taken} already: choose another name")
        if given in self._names:
            raise Fault(f"{bench.address_text(given)} has the name '{self._names[given]}' "
                        "already: one name for each address")
        self._addresses[name], self._names[given] = given, name

    def define(self, name, text):
        """name NAME = ADDRESS, or NAME1..30 = the first of thirty addresses in a row."""
        if not NAME.fullmatch(name) and not RANGE.fullmatch(name):
            raise Fault(f"name: {cut(name)} can't be a name: {RULE}; a range of them is scanner-1..30")
        first = address(text)
        if first is None:
            raise Fault(f"{cut(text)} is no address: six octets, {FORMS}")
        if NAME.fullmatch(name):
            return self._give(name, first)
        # The last address of all is broadcast's already, so no range runs past it.
        for step, member in enumerate(members(name)):
            self._give(member, (int.from_bytes(first, "big") + step).to_bytes(6, "big"))
        return None

    def lose(self, name):
        """A line that should have given this name was at fault."""
        if NAME.fullmatch(name) or not RANGE.fullmatch(name):
            self._lost.add(name)
        else:
            self._lost.update(members(name) if int(RANGE.fullmatch(name)[3]) < 10**4 else ())

    def find(self, text, what):
        """The addresses that a text stands for: one, or those of a range of names."""
        known = self._addresses.get(text)
        if known is not None:
            return [known]
        if address(text):
            return [address(text)]
        names = [text] if NAME.fullmatch(text) else members(text, what)
        for name in names:
            if name not in self._addresses:
                raise Fault("" if name in self._lost else self._unknown(name, what))
        return [self._addresses[name] for name in names]

    def _unknown(self, name, what):
        # Another number is another peer, so it is not offered.
        plain = DIGITS.sub("", name)
        near = suggest.near(name, [known for known in self._addresses if DIGITS.sub("", known) != plain or known == plain])
        hint = f"did you mean '{near[0]}'?" if near else f"'name {cut(name)[1:-1]} = ADDRESS' gives one"
        return f"{what}: no address has the name {cut(name)}: {hint}"

    def say(self, given):
        """An address as a reader knows it best: its name, 'own', or its octets."""
        known = self._names.get(given)
        if known:
            return known
        return "own" if given == self._addresses.get("own") else bench.address_text(given)
