"""Compares docs/pictures/moves.txt with every move that a program makes.

python3 -m tests.pictures.moves --bench CMD

The moves are derived by trying every event in every situation (situations.py). A move that the
program makes and the list has not, or the other way round, is named; so is a class of frames that
passes in a state where the list keeps it out, or the other way round. So it is with the moves of a
query.
"""

import argparse
import itertools
import shlex
import sys

from tests import ending
from tools import bench_input as bench
from tools.pictures import move_list

from . import situations

ROLES = {number: word for word, number in move_list.ROLES.items()}
# Kinds of frames, each with its class; some are of another one in an ad hoc network.
PROBES = {"type 0 subtype 8": 1, "Public Action": 1, "Disassociation": 2, "type 1 subtype 10": 3,
          "relayed data": 3}
DIRECT = ("type 2 subtype 0", "type 1 subtype 8", "type 1 subtype 9", "Action", "Action No Ack",
          "SA Query request")
QUERIES = {number: word for word, number in move_list.QUERIES.items()}


def expanded(lines):
    """The listed moves of a state, one for each RSNA, rule and hold, and of a query."""
    moves = {situations.Move(*line._replace(rsna=rsna, rule=rule, hold=hold))
             for line in lines.moves for rsna in line.rsna for rule in line.rule for hold in line.hold}
    return moves | {situations.QueryMove(*line._replace(rsna=rsna, rule=rule))
                    for line in lines.queries for rsna in line.rsna for rule in line.rule}


def passing(role, turns):
    """For each state of a role the classes that pass; a class is asked by its probes."""
    probes, seen = {**PROBES, **dict.fromkeys(DIRECT, 1 if role == bench.AD_HOC else 3)}, {}
    for turn in turns:
        klass = probes.get(turn.event.cause)
        if klass and turn.event.about == situations.PEER:
            seen.setdefault((turn.before[0].state, klass), set()).add(turn.verdict)
    for (state, klass), verdicts in seen.items():
        if len(verdicts) > 1:
            raise situations.Trouble(f"class {klass} in state {state} is sometimes admitted only")
    return {(role, *place) for place, verdicts in seen.items() if verdicts == {"A"}}


def settings_words(role, rsna, rule):
    return f"{ROLES[role]}, RSNA {rsna}, edition {rule[0]}, protection {rule[1]}"


def shown(move):
    if isinstance(move, situations.QueryMove):
        return (f"{settings_words(bench.ACCESS_POINT, move.rsna, move.rule)}: query "
                f"{QUERIES[move.before]} to {QUERIES[move.after]} by {move.by}, {move.cause}")
    state = {0: "none"}
    return (f"{settings_words(move.role, move.rsna, move.rule)}: "
            f"{state.get(move.before, move.before)} to "
            f"{state.get(move.after, move.after)} by {move.by}, {move.cause}; DS {move.ds}, "
            f"hold {move.hold}")


def derived(command):
    """All moves, what passes, and how much was tried; ends where a cause has two outcomes."""
    moves, passes, counts = set(), set(), [0, 0]
    for role, rsna, rule in itertools.product(ROLES, *(choices["any"] for choices in
                                                       (move_list.RSNA, move_list.RULES))):
        turns = list(situations.explore(command, role, rsna, rule))
        fault = situations.one_cause_one_outcome(turns)
        if fault:
            raise situations.Trouble(f"{settings_words(role, rsna, rule)}: {fault}")
        passes |= passing(role, turns)
        counts[0] += len({situations.situation(turn.before) for turn in turns})
        counts[1] += len(turns)
        for turn in turns:
            moves.update(situations.moves_of(turn, role, rsna, rule))
            moves.update(situations.query_moves_of(turn, role, rsna, rule))
    return moves, passes, counts


def main():
    parser = argparse.ArgumentParser(description=__doc__.splitlines()[0])
    parser.add_argument("--bench", required=True)
    given = parser.parse_args()
    try:
        lines = move_list.read()
        made, passes, counts = derived(shlex.split(given.bench) + ["changes"])
    except (move_list.Fault, situations.Trouble) as fault:
        sys.exit(f"moves: {fault}")
    wanted = expanded(lines)
    in_list = {(role, state, klass) for role, states in lines.passes.items()
               for state, classes in states.items() for klass in classes}
    faults = sorted(f"made and not in the list: {shown(move)}" for move in made - wanted)
    faults += sorted(f"in the list and never made: {shown(move)}" for move in wanted - made)
    faults += [f"{ROLES[role]}: class {klass} in state {state}: the list and the program differ"
               for role, state, klass in sorted(passes ^ in_list)]
    ending.tell(f"{counts[0]} situations, {counts[1]} events tried, {len(made)} moves", faults)


if __name__ == "__main__":
    main()
