"""Which word was meant: by its parts in other words, by how it begins, by a slip of a letter or two.

What makes a peer come in is never offered for what makes it leave, nor the other way round: people would take it.
"""

import re

from .values import Fault, cut

# What people call a part of a word, and what it is called here.
PARTS = {
    "authentication": "auth", "authenticate": "auth", "authenticated": "auth", "authn": "auth",
    "reauth": "auth", "reauthentication": "auth", "reauthenticate": "auth",
    "association": "assoc", "associate": "assoc", "associated": "assoc", "asso": "assoc",
    "reassociation": "reassoc", "reassociate": "reassoc", "reasso": "reassoc", "rejoin": "reassoc",
    "deauthentication": "deauth", "deauthenticate": "deauth", "unauth": "deauth", "deauthn": "deauth",
    "disassociation": "disassoc", "disassociate": "disassoc", "disasso": "disassoc", "deassoc": "disassoc",
    "dissociation": "disassoc", "dissociate": "disassoc", "dissoc": "disassoc", "unassoc": "disassoc",
    "req": "request", "rqst": "request", "resp": "response", "rsp": "response", "res": "response",
    "reply": "response", "answer": "response", "acknowledgement": "ack", "acknowledgment": "ack",
    "blockack": "block-ack", "noack": "no-ack",
}
# What people call a thing, and the words that may be meant.
WHOLE = {
    "nullfunc": "null", "nulldata": "null", "pspoll": "ps-poll", "saquery": "sa-query", "query": "sa-query",
    "bar": "block-ack-request", "ba": "block-ack", "anqp": "public-action", "gas": "public-action", "eapol": "data",
    "adhoc": "ad-hoc", "ibss": "ad-hoc", "access-point": "ap", "accesspoint": "ap", "sta": "station", "client": "station",
    "mac": "own", "address": "own", "bssid": "network", "time": "clock", "wait": "clock", "sleep": "clock", "tick": "clock",
    "primitive": "prim", "packet": "frame", "receive": "frame", "alias": "name", "mlo": "links", "assert": "expect",
    "source": "from", "src": "from", "sender": "from", "ta": "from", "sa": "from", "dst": "to", "dest": "to",
    "destination": "to", "receiver": "to", "ra": "to", "da": "to", "identifier": "id", "ies": "elements",
    "payload": "body", "timeout": "timeouts", "mfp": "protection", "pmf": "protection", "acked": "acknowledged",
    "join": "assoc", "leave": "disassoc", "transmit-report": "report", "set-keys": "set-protection",
    "setkeys": "set-protection", "setprotection": "set-protection", "drop": "discarded", "dropped": "discarded",
    "sent": "sends", "told": "tells", "accepted": "admitted", "passed": "admitted", "ok": "done",
}
# A primitive's parts are whole words.
LONG = {"auth": "authenticate", "assoc": "associate", "reassoc": "reassociate", "deauth": "deauthenticate",
        "disassoc": "disassociate", "response": "respond", "ack": "report", "acknowledged": "report"}
FAREWELLS = ("deauth", "disas", "diss", "deassoc", "unauth", "unassoc", "left", "leave")
GREETINGS = ("auth", "assoc", "reassoc", "reauth", "respond-auth", "respond-assoc", "respond-reassoc", "join")
MOST_OFFERED = 3
LONGEST_TRIED = 40


def _camel(word):
    return re.sub(r"(?<=[a-z])(?=[A-Z])", "-", word)


def _plain(word):
    """Small letters, '-' between the parts."""
    return re.sub(r"[-_. ]+", "-", _camel(word)).strip("-").lower()


def _turned(plain):
    """The word with each part as the scenario's words have it; a request or response may be grown together with it."""
    parts = [PARTS.get(part, part) for part in plain.split("-")]
    split = [re.sub(r"^(re|de|dis)?(auth|assoc|probe)(request|response|req|resp|rsp)$", r"\1\2-\3", part) for part in parts]
    return "-".join(PARTS.get(part, part) for one in split for part in one.split("-"))


def _forms(word):
    """What a word may stand for: itself, another word for it, its parts in other words, those of a primitive."""
    plain = _plain(word)
    turned = _turned(plain)
    whole = WHOLE.get(plain, turned)
    longer = "-".join(LONG.get(part, part) for part in _turned(whole).split("-"))
    back = "-".join(reversed(longer.split("-", 1)))
    query = "query" if "query" in plain else ""
    return [form for form in dict.fromkeys((plain, whole, turned, longer, back, query)) if form]


def distance(one, other):
    """How many letters are missing, too many, other ones or in the other order."""
    before, row = None, list(range(len(other) + 1))
    for i, a in enumerate(one, 1):
        now = [i]
        for j, b in enumerate(other, 1):
            now.append(min(row[j] + 1, now[-1] + 1, row[j - 1] + (a != b)))
            if before and j > 1 and a == other[j - 2] and one[i - 2] == b:
                now[-1] = min(now[-1], before[j - 2] + 1)
        before, row = row, now
    return row[-1]


def _opposite(form, known):
    """Whether one of two words is a farewell and the other is not."""
    leaves = form.startswith(("d", "un", "ed", "l"))
    return known.startswith(FAREWELLS) and not leaves or known.startswith(GREETINGS) and form.startswith(("d", "un"))


def _meant(form, known):
    """Those of the known words that a form is, or begins."""
    fitting = [one for one in known if not _opposite(form, one.lower())]
    same = [one for one in fitting if one.lower() == form]
    begun = [one for one in fitting if len(form) > 1 and one.lower().startswith(form + "-")]
    return same or begun or [one for one in fitting if len(form) > 1 and one.lower().startswith(form)]


def _slipped(form, words):
    """The nearest of some words, where it is a letter or two away; '' where none is."""
    slips = 1 if len(form) < 7 else 2
    counted = [(distance(form, one.lower()), at, one) for at, one in enumerate(words)
               if abs(len(form) - len(one)) <= slips and not _opposite(form, one.lower())]
    count, _, one = min(counted, default=(slips + 1, 0, ""))
    return one if count <= slips and count < len(form) else ""


def near(word, known):
    """The words that may be meant, the likeliest first; none where none is near."""
    if len(word) > LONGEST_TRIED:
        return []
    for form in _forms(word):
        found = _meant(form, known)
        if found:
            return found[:MOST_OFFERED]
    form = _plain(word)
    close = _slipped(form, known)
    if close:
        return [close]
    slip = _slipped(form, [part for part in (*PARTS, *WHOLE) if len(part) > 4])
    for other in _forms(slip) if slip else ():
        if _meant(other, known):
            return _meant(other, known)[:MOST_OFFERED]
    return [one for one in known if len(one) > 3 and form.startswith(one.lower())
            and not _opposite(form, one.lower())][:1]


def question(found):
    """The words that may be meant, as a question."""
    quoted = [f"'{one}'" for one in found]
    return "did you mean " + " or ".join(filter(None, (", ".join(quoted[:-1]), quoted[-1]))) + "?"


def one_of(word, known, what, guess=True, others=None):
    """The word as it is known, in whatever case it is given; else a fault that names the nearest, or what there is."""
    low = word.lower()
    if low in known:
        return low
    found = near(word, list(known)) if guess else []
    right = question(found) if found else others or "one of " + ", ".join(known)
    raise Fault(f"{cut(word)} is no {what}: {right}")
