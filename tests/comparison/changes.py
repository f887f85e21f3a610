"""Whether what `changes` prints agrees with the trace and with the reasons of the same program.

A table is held here: the places that an event's lines show are put into it, the others stay as they were,
and after every event it must have the table lines of the trace, no more and no fewer. A place is shown
only where it is not as it was. Octets and current AP are those of the trace, and the reason is that of
`why` where it is not `none`. Nothing here knows a rule, nor what a row means: rows are their lines.
"""

import itertools

STOP = "stop"
FREE, PLACE, BEHIND = "free", "place", ("links", "query")
BESIDE, BECAUSE = ("octets", "current"), "because"
PLACES = {str(place): place for place in range(32)}


def word_of(line):
    """The first word of a line that is two blanks in; nothing of any other."""
    return line[2:].partition(" ")[0] if line[:2] == "  " else ""


def place_of(line):
    """The place that a line of a row names behind its first word; None where that is no place."""
    return PLACES.get(line[2:].split(" ")[1] if " " in line[2:] else "")


def blocks(text):
    """The lines of each event, its own first; `stop`, where it ends so, is a block of itself."""
    made = []
    for line in text.splitlines():
        if made and line.startswith(" "):
            made[-1].append(line)
        else:
            made.append([line])
    return made


def rows(lines):
    """The lines of one place each."""
    made = []
    for line in lines:
        if made and word_of(line) in BEHIND:
            made[-1].append(line)
        else:
            made.append([line])
    return made


def split(lines):
    """What stands behind an event's own line: octets and current AP, and what is behind those."""
    beside = list(itertools.takewhile(lambda line: word_of(line) in BESIDE, lines[1:]))
    return beside, lines[1 + len(beside):]


def is_row(row, place):
    """Whether these lines are one place's: that it is free, or its line with others of it behind."""
    if word_of(row[0]) == FREE:
        return row == [f"  {FREE} {place}"]
    return word_of(row[0]) == PLACE and all(place_of(line) == place for line in row)


def put(table, shown):
    """Puts the rows that an event shows into the table; gives what is wrong with them, or None."""
    last = -1
    for row in rows(shown):
        place = place_of(row[0])
        if place is None or not is_row(row, place):
            return f"shows {row}, which is no row"
        if place <= last:
            return f"shows place {place} behind place {last}"
        now = [] if word_of(row[0]) == FREE else row
        if table.get(place, []) == now:
            return f"shows {row}, which is as it was"
        table[place], last = now, place
    return None


def disagreement(table, changed, traced, reason):
    """What one event's lines have that its trace or its reason has not, or None; its rows are put into
    the table. The reason is the text behind the number."""
    beside, rest = split(changed)
    traced_beside, traced_rows = split(traced)
    if [changed[0], *beside] != [traced[0], *traced_beside]:
        return f"has {[changed[0], *beside]}, its trace {[traced[0], *traced_beside]}"
    because = [] if reason.split(" ")[0] == "none" else [f"  {BECAUSE} {reason}"]
    said = [line for line in rest if word_of(line) == BECAUSE]
    if said != because or rest[:len(said)] != said:
        return f"has {rest} behind it, its reason is '{reason}'"
    fault = put(table, rest[len(said):])
    if fault:
        return fault
    held = list(itertools.chain.from_iterable(table[place] for place in sorted(table)))
    for line, wanted in itertools.zip_longest(held, traced_rows, fillvalue="nothing more"):
        if line != wanted:
            return f"leaves '{line.strip()}' where its trace has '{wanted.strip()}'"
    return None


def check(said, printed, reasons):
    """The first event whose lines do not agree, as text, or None; `said` is what `changes` printed, then
    the lines and trace, and what `why` printed, all of one program and of the same octets."""
    changed, traced, lines, table = blocks(said), blocks(printed), reasons.splitlines(), {}
    if not len(changed) == len(traced) == len(lines):
        return f"{len(changed)} lines of changes, {len(traced)} with a trace, {len(lines)} of reasons"
    if said and not said.endswith("\n"):
        return f"the last line has no end: {said[-80:]!r}"
    for number, (block, trace, line) in enumerate(zip(changed, traced, lines), 1):
        if number == len(lines) and [STOP] in (block, trace, [line]):
            return None if block == trace == [line] else f"ends with {block}, its trace with {trace}"
        named, _, reason = line.partition(" ")
        fault = disagreement(table, block, trace, reason)
        if fault or named != block[0].split(" ")[0]:
            return f"event {number} {fault or f'has the reason of event {named}'}"
    return None
