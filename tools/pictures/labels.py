"""Blocks of labels: one line a cause, with a mark for a frame, a primitive or the clock."""

import collections

from .svg import AMBER, BLUE, MUTED, PAPER, width_of

LINE = 19
TEXT_AT = 25
LONGEST = 40

# mark: `frame`, `primitive-N`, `clock`, `heading` or None; tag: a word in another colour behind.
Label = collections.namedtuple("Label", "mark words tag", defaults=(None,))


def mark(canvas, kind, x, y):
    """The mark of a cause, its middle at (x, y)."""
    if kind == "frame":
        canvas.put("circle", cx=float(x), cy=float(y), r=5, fill=BLUE)
    elif kind == "clock":
        canvas.put("circle", cx=float(x), cy=float(y), r=5.5, fill=PAPER, stroke=MUTED,
                   stroke_width=1.4)
        canvas.put("path", d=f"M{x:g} {y - 3.5:g}V{y:g}H{x + 3:g}", fill="none", stroke=MUTED,
                   stroke_width=1.4)
    elif kind:
        canvas.rectangle(x - 9, y - 7, 18, 14, AMBER, radius=3)
        canvas.put("text", kind.split("-")[1], x=float(x), y=y + 3.8, font_size=10.5, fill=PAPER,
                   text_anchor="middle", font_weight=600)


def wrapped(label):
    """A long label in two lines, parted at its last comma."""
    if len(label.words) <= LONGEST or ", " not in label.words:
        return [label]
    first, last = label.words.rsplit(", ", 1)
    return [Label(label.mark, first + ","), Label(None, last, label.tag)]


def lines_of(labels):
    return [line for label in labels for line in wrapped(label)]


def line_width(line):
    tag = f"  {line.tag}" if line.tag else ""
    return (0 if line.mark == "heading" else TEXT_AT) + width_of(line.words + tag)


def block_size(labels):
    lines = lines_of(labels)
    return max(line_width(line) for line in lines), LINE * len(lines)


def block(canvas, x, y, labels):
    """The block with its upper left corner at (x, y)."""
    for line in lines_of(labels):
        if line.mark == "heading":
            canvas.text(x, y + 13, line.words, fill=MUTED)
        else:
            mark(canvas, line.mark, x + 9, y + 9)
            canvas.words.append((f"the mark of {line.words}", x - 2, y + 2, x + 20, y + 16, not line.mark))
            canvas.text(x + TEXT_AT, y + 13, line.words, tag=line.tag)
        y += LINE
