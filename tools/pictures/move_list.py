"""Reads docs/pictures/moves.txt: the moves of a state and of a query, and the classes that pass."""

import collections
import pathlib

ROOT = pathlib.Path(__file__).resolve().parent.parent.parent
LIST = ROOT / "docs" / "pictures" / "moves.txt"

ROLES = {"ap": 1, "station": 2, "ad-hoc": 3}
RSNA = {"0": (0,), "1": (1,), "any": (0, 1)}
# The rules by edition and protection.
RULES = {"1": ((1, 0), (1, 1)), "2": ((2, 0),), "2p": ((2, 1),),
         "any": ((1, 0), (1, 1), (2, 0), (2, 1))}
STATES = {"none": 0, "1": 1, "2": 2, "3": 3, "4": 4}
# The states that each role has, by name.
STATES_OF = {"ap": tuple(STATES), "station": tuple(STATES), "ad-hoc": ("none", "1", "2")}
QUERIES = {"none": 0, "sent": 1, "due": 2, "timed-out": 3}
COLUMNS, QUERY_COLUMNS = 9, 7

# One line of the list; `rsna`, `rule` and `hold` are tuples, states are numbers and 0 is no record.
Listed = collections.namedtuple("Listed", "role rsna rule before after ds hold by cause")
ListedQuery = collections.namedtuple("ListedQuery", "rsna rule before after by cause")
# The whole list; `passes` has for each role and state the classes that pass.
List = collections.namedtuple("List", "moves queries passes")


class Fault(Exception):
    """A fault of the list, or of a picture drawn from it: one line that says what and where."""


def one_of(number, what, word, choices):
    if word not in choices:
        raise Fault(f"{LIST.name}, line {number}: {what} is '{word}', "
                    f"not one of {', '.join(choices)}")
    return choices[word] if isinstance(choices, dict) else word


def listed(number, words):
    if len(words) < COLUMNS:
        raise Fault(f"{LIST.name}, line {number}: {len(words)} columns, not {COLUMNS}")
    role, rsna, rule, before, after, ds, hold, by, cause = words
    return Listed(one_of(number, "role", role, ROLES), one_of(number, "RSNA", rsna, RSNA),
                  one_of(number, "rule", rule, RULES), one_of(number, "from", before, STATES),
                  one_of(number, "to", after, STATES), one_of(number, "DS", ds, ("-", "J", "L")),
                  tuple(hold.split(",")), by, cause)


def listed_query(number, line):
    words = line.split(maxsplit=QUERY_COLUMNS - 1)
    if len(words) < QUERY_COLUMNS:
        raise Fault(f"{LIST.name}, line {number}: {len(words)} columns, not {QUERY_COLUMNS}")
    _, rsna, rule, before, after, by, cause = words
    return ListedQuery(one_of(number, "RSNA", rsna, RSNA), one_of(number, "rule", rule, RULES),
                       one_of(number, "from", before, QUERIES), one_of(number, "to", after, QUERIES),
                       by, cause)


def read(path=LIST):
    """The whole list."""
    moves, queries, passes = [], [], {role: {} for role in ROLES.values()}
    try:
        lines = path.read_text().splitlines()
    except OSError as fault:
        raise Fault(f"the list of moves can't be read: {fault}") from fault
    for number, line in enumerate(lines, 1):
        line = line.split("#", 1)[0].rstrip()
        words = line.split(maxsplit=COLUMNS - 1)
        if not words:
            continue
        if words[0] == "query":
            queries.append(listed_query(number, line))
        elif words[0] == "passes":
            role, state, *classes = words[1:] if len(words) > 2 else ("", "")
            passes[one_of(number, "role", role, ROLES)][one_of(number, "state", state, STATES)] = tuple(
                int(one_of(number, "class", word, "123")) for word in classes)
        else:
            moves.append(listed(number, words))
    missing = [(role, name) for role, names in STATES_OF.items() for name in names
               if STATES[name] not in passes[ROLES[role]]]
    if missing:
        raise Fault(f"{path.name}: no line says what passes in state {missing[0][1]}, {missing[0][0]}")
    return List(moves, queries, passes)
