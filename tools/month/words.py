"""The numbers of a month in words: all together first, then a line for each file."""

from tools.scenario.values import visible

from .blocks import DISCARDS, OVER, REFUSALS, TIMEOUTS, shown, sum_of

WIDE = 44
# The columns of the table, and what each has of a block.
COLUMNS = {"events": lambda one: one.events, "refused": lambda one: sum_of(one.refusals),
           "discarded": lambda one: sum_of(one.discards), "joins": lambda one: one.joins, "leaves": lambda one: one.leaves,
           "timeouts": lambda one: sum_of(one.timeouts), "holds": lambda one: one.holds, "longest": lambda one: one.longest,
           "mean": lambda one: one.mean}


def count(number, word):
    return f"{number:,} {word}" + ("" if number == 1 else "s")


def name_of(file, wide=WIDE):
    """A file's name: no sign that a terminal acts on, and the end of one that is long."""
    text = visible(file).replace("\t", "\\t")
    return text if len(text) <= wide else ".." + text[2 - wide:]


def part(of, all_):
    """How much of all events a number is."""
    return f"   {100 * of / all_:.1f} % of the events" if of and all_ and OVER not in (of, all_) else ""


def _several(title, numbers, about, events):
    """A sum, and below it each of its numbers that is not 0."""
    total = sum_of(numbers)
    yield f"  {title:12}{shown(total):>27}{part(total, events)}"
    for number, what in zip(numbers, about):
        if number:
            yield f"  {shown(number):>39}   {what}"


def mean_of(block):
    if block.mean == OVER:
        return "the mean over"
    exact = f"{block.mean.numerator}/{block.mean.denominator}"
    return f"the mean {exact} TU" + (f", about {shown(block.mean)}" if block.mean.denominator > 1 else "")


def together(block):
    """What all files have together."""
    yield f"  {'events':12}{shown(block.events):>27}"
    yield f"  {'joins':12}{shown(block.joins):>27}"
    yield f"  {'leaves':12}{shown(block.leaves):>27}"
    yield from _several("refused", block.refusals, REFUSALS, block.events)
    yield from _several("discarded", block.discards, DISCARDS, block.events)
    yield from _several("timeouts", block.timeouts, TIMEOUTS, 0)
    yield f"  {'holds set':12}{shown(block.holds):>27}"
    if block.holds:
        yield f"  {'':39}   the longest {shown(block.longest)} TU, together {shown(block.total)} TU, {mean_of(block)}"


def table(names, found, all_):
    """A line for each file, below it all together; holds in TU."""
    rows = [["file", *COLUMNS]]
    for name, one in [*((name_of(name), one) for name, one in zip(names, found)), ("all together", all_)]:
        rows.append([name, *(shown(take(one)) for take in COLUMNS.values())])
    wide = [max(len(row[at]) for row in rows) for at in range(len(rows[0]))]
    for first, *rest in rows:
        yield "  " + first.ljust(wide[0]) + "".join(f"  {text:>{width}}" for text, width in zip(rest, wide[1:]))


def lines(names, found, all_):
    """All that is told."""
    yield f"{count(len(names), 'file')}, all together:"
    yield from together(all_)
    yield ""
    yield "File by file; the longest and the mean hold in TU of 1,024 us:"
    yield from table(names, found, all_)
    if any(OVER in (one.mean, *one.refusals, *one.discards, *one.timeouts, *one[3:5], *one[6:9], one.events) for one in [*found, all_]):
        yield ""
        yield "'over' is a number past 64 bits, 18,446,744,073,709,551,615; the others stand."
