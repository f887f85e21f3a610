"""Under which settings a move is made: the words for it beside an arrow, none where under all of them."""

from .move_list import Fault

# Words, and which settings they are for; a rule is edition and protection.
WORDS = (("RSNA required", lambda rsna, rule: rsna == 1),
         ("RSNA not required", lambda rsna, rule: rsna == 0),
         ("edition 1", lambda rsna, rule: rule[0] == 1),
         ("edition 2", lambda rsna, rule: rule == (2, 0)),
         ("edition 2, protected", lambda rsna, rule: rule == (2, 1)))
# Shorter, where they stand behind a cause.
TAGS = {"RSNA required": "RSNA", "RSNA not required": "no RSNA"}


def settings_of(moves):
    return {(rsna, rule) for move in moves for rsna in move.rsna for rule in move.rule}


def condition(moves, leaving):
    """The words for some moves out of a state. `leaving` are all moves out of it: together they show
    under which settings the state is there at all."""
    wanted, there = settings_of(moves), settings_of(leaving)
    if wanted == there:
        return None
    for words, holds in WORDS:
        if wanted == {(rsna, rule) for rsna, rule in there if holds(rsna, rule)}:
            return words
    raise Fault(f"states: no words for when '{moves[0].cause}' moves state {moves[0].before}")
