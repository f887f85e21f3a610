"""What the pictures of the states say beside the arrows: sentences, each tested against the list.

A test is given the moves of one role, and those of a query, and says whether the sentence holds of them.
"""

from .move_list import QUERIES, RULES


def rises_at_report(moves, _):
    rising = [move.by for move in moves if move.before == 2 and move.after > 2]
    return set(rising) == {"primitive-10"}


def authentication_keeps(moves, _):
    """No authentication moves a state but the first two."""
    names = ("Authentication", "AUTHENTICATE")
    return all(move.before < 2 for move in moves if move.cause.startswith(names))


def protected_rejection_keeps(moves, _):
    """No rejection moves a state in edition 2 with protection; without, it lowers State 4 to 3 alone."""
    seen = {(rule, move.before, move.after) for move in moves for rule in move.rule
            if move.by in ("primitive-7", "primitive-8") and rule[0] == 2}
    return seen == {((2, 0), 4, 3)}


def query_keeps_out(moves, queries):
    """Each request without a query or a mark starts one, and only a mark lets it pass, in edition 2
    with protection alone."""
    requests = {(query.before, query.after, query.rule) for query in queries
                if query.cause in ("Association request", "Reassociation request")}
    return requests == {(QUERIES["none"], QUERIES["due"], RULES["2p"]),
                        (QUERIES["timed-out"], QUERIES["none"], RULES["2p"])}


def freed_by_clock(moves, _):
    return {move.by for move in moves if move.after == 0} == {"clock"}


def links_keep_a_place(moves, _):
    """Naming links makes a record, and no record with links is freed."""
    return any(move.by == "primitive-12" and move.before == 0 for move in moves) and all(
        move.cause.endswith("no links") for move in moves if move.after == 0)


def bad_aid_does_nothing(moves, _):
    return not any("bad AID" in move.cause for move in moves)


def one_at_a_time(moves, _):
    """A success from another AP lowers State 3 and 4 to 2, and does nothing else."""
    seen = {(move.before, move.after) for move in moves if move.cause.endswith("from another AP")}
    return seen == {(3, 2), (4, 2)}


def either_asks(moves, _):
    """A record is made by a request that is heard and by one of our own, and by nothing else."""
    return {(move.by, move.cause) for move in moves if move.before == 0} == {
        ("frame", "Authentication, transaction 1"), ("primitive-1", "AUTHENTICATE.request")}


def either_answers(moves, _):
    """Our own answer leads to State 2, and so does the answer to us."""
    return {move.by for move in moves if move.after == 2} == {"primitive-2", "frame"}


def no_association(moves, _):
    return all(move.after < 3 for move in moves)


FREED = (("A place is freed by the clock alone,", "never by a deauthentication."), freed_by_clock)
REPEATED = (("A repeated authentication keeps States 2 to 4.",), authentication_keeps)
NOTES = {
    1: ((("The response moves nothing: the state rises", "at the report of its acknowledgement."),
         rises_at_report),
        REPEATED,
        (("A rejection in edition 2 lowers State 4 to 3;", "with protected management frames it",
          "moves nothing."), protected_rejection_keeps),
        (("In edition 2 with protection a request in", "State 4 is answered with status 30 and moves",
          "nothing: an SA Query asks the peer first."), query_keeps_out),
        (FREED[0] + ("A device with links keeps its place.",),
         lambda *listed: freed_by_clock(*listed) and links_keep_a_place(*listed))),
    2: ((("A success with an AID outside 1 to 2007", "moves nothing."), bad_aid_does_nothing),
        REPEATED,
        (("One AP at a time is in State 3 or 4:", "a success at another lowers the first."),
         one_at_a_time)),
    3: ((("Either end may ask: a request that is heard", "makes a record, and so does one of our own."),
         either_asks),
        (("Our own answer leads to State 2, and so does", "the answer to our request."), either_answers),
        (("There is no association: State 2 is the highest.",), no_association),
        FREED),
}


def belied(role, listed):
    """The first sentence of a role that the list belies; None where all hold."""
    mine = [move for move in listed.moves if move.role == role]
    return next((" ".join(lines) for lines, holds in NOTES[role]
                 if not holds(mine, listed.queries)), None)
