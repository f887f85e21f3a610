"""The pictures of a month on one sheet: file by file in columns, and all together in bars with their words."""

import collections

from tools.pictures.charts import shortened
from tools.pictures.svg import AMBER, BLUE, EDGE, GREEN, INK, MUTED, RED, Canvas, width_of

from .blocks import DISCARDS, OVER, REFUSALS, TIMEOUTS, shown, sum_of, together
from .words import count, name_of

WIDTH, EDGES, BETWEEN = 1000, 24, 40
HALF = (WIDTH - 2 * EDGES - BETWEEN) // 2
# The height of columns, the room for the numbers at their left, and the widest column.
TALL, LEFT, WIDEST, ROW = 84, 84, 56, 21
# So many files have a column each; the others are one column together. Few enough have their numbers written above.
MOST_FILES, NUMBERED = 30, 7
LIGHT, PALE = "#6b9fd4", "#b8d0ea"
# The three reasons of a discard, in a column and in their bars.
SHADES = (PALE, BLUE, LIGHT)
SMALL = 10.5
# A panel: its title, what stands beside it, the stack of each column, its colours, and heights that are marked.
Panel = collections.namedtuple("Panel", "title beside stacks fills marks", defaults=((),))


def brief(value):
    """A number that has little room: rounded where it is high."""
    return shown(value) if value == OVER or value < 10**10 else f"{float(value):.3g}".replace("e+", "e")


class Sheet:
    """A canvas that is filled from the top down."""

    def __init__(self, title, about):
        self.canvas = Canvas(WIDTH, 0, title, about)
        self.canvas.text(EDGES, 40, title, 20, bold=True)
        self.canvas.text(EDGES, 64, about, fill=MUTED)
        self.y = 104

    def heading(self, words):
        self.canvas.text(EDGES, self.y, words, 13.5, bold=True)
        self.y += 24

    def panel(self, panel, x, rest):
        """Columns, each a stack of values from the bottom up, below a title."""
        canvas, y, many = self.canvas, self.y, len(panel.stacks)
        canvas.text(x, y, panel.title, 13.5, bold=True)
        canvas.text(x + HALF, y, panel.beside, anchor="end", fill=MUTED)
        sums = [sum_of(stack) for stack in panel.stacks]
        highest = max([total for total in (sums[:-1] if rest else sums) if total != OVER] + [1])
        top, base, each = y + 28, y + 28 + TALL, min((HALF - LEFT) / many, WIDEST)
        left, right = x + LEFT, x + LEFT + each * many
        canvas.line([(left, top), (right, top)], EDGE, head=False, thin=True, under=True)
        canvas.text(left - 8, top + 4, brief(highest), SMALL, "end", fill=MUTED)
        canvas.text(left - 8, base + 4, "0", SMALL, "end", fill=MUTED)
        for at, stack in enumerate(panel.stacks):
            self.column(left + each * (at + 0.14), each * 0.72, base, highest, stack, panel.fills)
            if at < len(panel.marks) and 0 < panel.marks[at] <= highest:
                level = base - float(panel.marks[at]) / highest * TALL
                canvas.rectangle(left + each * (at + 0.08), level - 1, each * 0.84, 2, INK, radius=0)
            self.numbers(left + each * (at + 0.5), base, at, sums, highest, rest)
        canvas.line([(left, base), (right, base)], MUTED, head=False, thin=True)

    def column(self, x, wide, base, highest, stack, fills):
        """One stack; what is over the highest is cut there."""
        top = base
        for value, fill in zip(stack, fills):
            tall = min(TALL if value == OVER else value / highest * TALL, top - base + TALL)
            if tall > 0:
                self.canvas.rectangle(x, top - tall, wide, tall, fill, radius=0)
                top -= tall

    def numbers(self, middle, base, at, sums, highest, rest):
        """The number of a file below its column, and its value above it where there is room or the last column is cut."""
        many, last, value = len(sums), at + 1 == len(sums), sums[at]
        every = 1 if many <= 20 else 5
        if rest and last:
            self.canvas.text(middle, base + 14, "rest", SMALL, "middle", fill=MUTED)
        elif at == 0 or (at + 1) % every == 0 and not (rest and at + 2 == many):
            self.canvas.text(middle, base + 14, str(at + 1), SMALL, "middle", fill=MUTED)
        cut, words = value == OVER or value > highest, brief(value)
        if cut and last and many > NUMBERED:
            words += "" if value == OVER else ", cut"
            self.canvas.text(middle + 8, base - TALL - 5, words, SMALL, "end", over=True)
        elif many <= NUMBERED and width_of(words, SMALL) < WIDEST - 4:
            self.canvas.text(middle, base - 5 - (TALL if cut else value / highest * TALL), words, SMALL, "middle", over=True)

    def bars(self, numbers, words, fills):
        """A bar for each number that is not 0, with its words."""
        highest = max([value for value in numbers if value != OVER] + [1])
        for value, about, fill in zip(numbers, words, fills):
            if value:
                wide, number = 220 * (1 if value == OVER else value / highest), width_of(shown(value), bold=True)
                self.canvas.rectangle(EDGES, self.y - 11, max(wide, 1), 13, fill, radius=0)
                self.canvas.text(EDGES + wide + 8, self.y, shown(value), bold=True)
                self.canvas.text(EDGES + wide + 18 + number, self.y, shortened(about, WIDTH - 70 - wide - number))
                self.y += ROW
        if not any(numbers):
            self.canvas.text(EDGES, self.y, "none", fill=MUTED)
            self.y += ROW
        self.y += 16

    def names(self, files, rest):
        """Which file a column's number stands for."""
        half = (len(files) + 1) // 2
        for at, file in enumerate(files):
            self.canvas.text(EDGES + (HALF + BETWEEN) * (at // half), self.y + ROW * (at % half),
                             shortened(f"{at + 1}  {name_of(file)}", HALF))
        self.y += ROW * half
        if rest:
            self.canvas.text(EDGES, self.y, f"rest  {count(rest, 'file')} together")
            self.y += ROW


def panels(columns, all_):
    """What is drawn file by file."""
    holds = f"{shown(all_.longest)}, mean {shown(all_.mean)}" if all_.holds else "none"
    return [Panel("Joins", shown(all_.joins), [(one.joins,) for one in columns], (GREEN,)),
            Panel("Leaves", shown(all_.leaves), [(one.leaves,) for one in columns], (AMBER,)),
            Panel("Refused", shown(sum_of(all_.refusals)), [(sum_of(one.refusals),) for one in columns], (RED,)),
            Panel("Discarded", shown(sum_of(all_.discards)), [one.discards for one in columns], SHADES),
            Panel("Holds set", shown(all_.holds), [(one.holds,) for one in columns], (BLUE,)),
            Panel("Longest hold, TU", holds, [(one.longest,) for one in columns], (PALE,),
                  [one.mean for one in columns])]


def chosen(names, found):
    """The places of the files that have a column each, in their order: all, or those with the most events."""
    most = sorted(range(len(names)), key=lambda at: -found[at].events)[:MOST_FILES]
    return sorted(most) if len(names) > MOST_FILES + 1 else list(range(len(names)))


def draw(names, found, all_):
    """The sheet. Where files are many some of them are drawn, and the others together."""
    places = chosen(names, found)
    others = sorted(set(range(len(names))).difference(places))
    columns = [found[at] for at in places] + ([together([found[at] for at in others])] if others else [])
    about = (f"The {len(places)} files with the most events have a column each, the other {len(others):,} are the last one, together."
             if others else "Each file has a column, in the order they were given.")
    sheet = Sheet(f"The month: {count(len(names), 'file')}, {shown(all_.events)} events",
                  about + " The line across the longest hold is the mean.")
    for at, panel in enumerate(panels(columns, all_)):
        sheet.panel(panel, EDGES + (HALF + BETWEEN) * (at % 2), bool(others))
        sheet.y += (TALL + 80) * (at % 2)
    for title, numbers, words, fills in (("Refused, all together", all_.refusals, REFUSALS, (RED,) * 9),
                                         ("Discarded, all together", all_.discards, DISCARDS, SHADES),
                                         ("Timeouts, all together", all_.timeouts, TIMEOUTS, (AMBER,) * 5)):
        sheet.heading(title)
        sheet.bars(numbers, words, fills)
    sheet.heading("The files")
    sheet.names([names[at] for at in places], len(others))
    sheet.canvas.height = sheet.y + 12
    return sheet.canvas
