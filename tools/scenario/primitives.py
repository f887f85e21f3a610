"""The primitives: number, word, name in the rules, and what their code is called."""

import collections

from .suggest import one_of
from .values import Fault, number

Primitive = collections.namedtuple("Primitive", "number word name code default roles")

TABLE = [
    Primitive(1, "authenticate", "AUTHENTICATE.request", "code", 0, "station, ad hoc"),
    Primitive(2, "respond-authenticate", "AUTHENTICATE.response", "status", 0, "AP, ad hoc"),
    Primitive(3, "deauthenticate", "DEAUTHENTICATE.request", "reason", 3, "all"),
    Primitive(4, "associate", "ASSOCIATE.request", "code", 0, "station"),
    Primitive(5, "reassociate", "REASSOCIATE.request", "code", 0, "station"),
    Primitive(6, "disassociate", "DISASSOCIATE.request", "reason", 8, "AP, station"),
    Primitive(7, "respond-associate", "ASSOCIATE.response", "status", 0, "AP"),
    Primitive(8, "respond-reassociate", "REASSOCIATE.response", "status", 0, "AP"),
    Primitive(9, "set-protection", "SETPROTECTION Rx_Tx", "code", 0, "AP, station"),
    Primitive(10, "report", "transmit report", "acknowledged", 1, "AP"),
    Primitive(11, "query", "SA-QUERY.request", "code", 0, "AP"),
]
BY_WORD = {row.word: row for row in TABLE}
BY_NUMBER = {row.number: row for row in TABLE}
CODES = {row.code for row in TABLE}


def find(text):
    """The primitive that a word or number means; a number that the rules do not know is one too."""
    if text[0].isdigit():
        which = number(text, "primitive", 255)
        return BY_NUMBER.get(which) or Primitive(which, text, "unknown", "code", 0, "none")
    return BY_WORD[one_of(text, BY_WORD, "primitive")]


def takes(row, name):
    """A fault where a primitive is given what is a frame's, or another primitive's."""
    if name in ("comeback", "elements", "body"):
        raise Fault(f"primitive {row.word} takes no {name}: the table writes no elements, the host appends them "
                    f"to the frame; {name}=.. is for a frame that comes in")
    if name in CODES and name not in ("code", row.code):
        raise Fault(f"the code of primitive {row.word} is not called {name}: {row.code}=..")
