"""Message charts: who says what to whom, drawn from a scene's steps and answers."""

import collections
import re

from .labels import TEXT_AT, mark
from .scenes import ACK, COMEBACK_0, COMEBACK_5, JOIN, NO_COMEBACK, PARTS
from .states import FILLS
from .svg import AMBER, BLUE, GREEN, INK, MUTED, PAPER, RED, Canvas, width_of
from .words import QUERIES, REFUSALS, frame_words, notice_words, primitive_words

ROW, LINE = 34, 16
TOP = 92
# The lifelines of each side's own side, table and peer, of an attacker, and of a peer's radios by address.
Lines = collections.namedtuple("Lines", "own table peer attacker radios", defaults=(None, {}))


def parted(words, room):
    """Words in as many lines as they need, parted at commas, and at blanks where a part is too long for a line."""
    lines = [""]
    for part in words.split(", "):
        longer = f"{lines[-1]}, {part}" if lines[-1] else part
        if lines[-1] and width_of(longer) > room:
            lines[-1] += ","
            longer = part
            lines.append("")
        lines[-1] = longer
    return [short for line in lines for short in broken(line, room)]


def broken(words, room):
    """Words in lines that are no longer than the room, parted at blanks but not before a number; a word that is
    longer is cut."""
    if width_of(words) <= room:
        return [words]
    lines = [""]
    for word in re.split(r" (?![0-9])", words):
        longer = f"{lines[-1]} {word}".strip()
        if lines[-1] and width_of(longer) > room:
            lines.append("")
            longer = word
        lines[-1] = shortened(longer, room)
    return lines


def shortened(words, room):
    """As much of a text as there is room for."""
    if width_of(words) <= room:
        return words
    while words and width_of(words + "..") > room:
        words = words[:-1]
    return words + ".."


class Chart:
    """Lifelines with names, and a place `y` down to which they are filled. `show_hold` says that
    the badges name the hold too."""

    def __init__(self, canvas, lifelines, show_hold=False, top=TOP):
        self.canvas, self.lifelines, self.show_hold = canvas, lifelines, show_hold
        self.y = self.top = top + 46

    def names(self, ends):
        """The lifelines, down to `ends`, each with its name in a box."""
        for x, name in self.lifelines.items():
            self.canvas.line([(x, self.top - 16), (x, ends)], "#afb8c1", dashed=True,
                             head=False, thin=True, under=True)
            wide = width_of(name, 12.5, True) + 22
            self.canvas.rectangle(x - wide / 2, self.top - 46, wide, 30, "#eff2f5", "#8c959f")
            self.canvas.text(x, self.top - 26.5, name, anchor="middle", bold=True, over=True)

    def message(self, start, end, words, kind=None, stroke=INK, dashed=False, stopped=False):
        """An arrow with its words above it: over all of it, or from its start to the first lifeline
        that it crosses. One that is stopped, not let in, is crossed out before its head."""
        crossed = [x for x in self.lifelines if min(start, end) < x < max(start, end)]
        indent = TEXT_AT if kind else 0
        edge = min(crossed, key=lambda x: abs(x - start), default=end)
        lines = parted(words, abs(edge - start) - 16 - indent)
        lift = 6 if stopped else 0
        self.y += ROW + lift + LINE * (len(lines) - 1)
        wide = max(width_of(line) for line in lines) + indent
        left = (start + edge) / 2 - wide / 2
        for at, line in enumerate(reversed(lines)):
            self.canvas.text(left + indent, self.y - 7 - lift - LINE * at, line,
                             fill=stroke if stroke == RED else INK)
        if kind:
            mark(self.canvas, kind, left + 9, self.y - 11 - LINE * (len(lines) - 1))
        self.canvas.line([(start, self.y), (end, self.y)], stroke, dashed)
        if stopped:
            self.cross(end + (20 if start > end else -20))

    def cross(self, x):
        """A cross on the last arrow."""
        for slope in (-1, 1):
            self.canvas.put("line", x1=float(x - 6), y1=float(self.y - 6 * slope), x2=float(x + 6),
                            y2=float(self.y + 6 * slope), stroke=RED, stroke_width=2.4)

    def badge(self, x, words, fill, kind=None):
        """Words on a lifeline."""
        self.y += 9
        wide = width_of(words, 11.5, True) + 18 + (18 if kind else 0)
        self.canvas.rectangle(x - wide / 2, self.y, wide, 22, fill, "#8c959f", 11)
        if kind:
            mark(self.canvas, kind, x - wide / 2 + 14, self.y + 11)
        self.canvas.text(x + (9 if kind else 0), self.y + 15.2, words, 11.5, "middle", True,
                         over=True)
        self.y += 18

    def state_badge(self, x, state, hold, query):
        words = f"State {state}" + (f", hold {hold} TU" if self.show_hold else "")
        self.badge(x, words + (f", {QUERIES[query]}" if query else ""), FILLS[state])


def event_message(chart, lines, step, heard):
    """What comes to the table."""
    kind, (_, verdict, notice, *_) = step.event[0], step.answer.split()
    if kind == "ask":
        chart.message(lines.own, lines.table, primitive_words(*step.event[1:]),
                      f"primitive-{step.event[1]}", AMBER)
    elif kind == "links":
        chart.message(lines.own, lines.table, primitive_words(12, len(step.event[1])), "primitive-12", AMBER)
    elif kind == "clock":
        chart.y += 10
        chart.badge(lines.table, f"{step.event[1]} TU pass", PAPER, "clock")
    elif step.forged:
        chart.message(lines.attacker, lines.table, frame_words(step.event[1]) + ", forged", None, RED)
    elif step.event[1] not in heard:
        alone = (verdict, notice) == ("A", "0") and step.event[1] != ACK
        judged = ", admitted" if alone else ", discarded" if verdict == "D" else ""
        sender = lines.radios.get(step.event[1][10:16], lines.peer)
        chart.message(sender, lines.table, frame_words(step.event[1]) + judged, None,
                      RED if verdict == "D" else BLUE, step.event[1] == ACK, verdict == "D")


def answer_messages(chart, lines, step):
    """What the table says of it: a refusal, a frame, a notice, a word to the DS."""
    refusal, _, notice, code, _, ds, _ = step.answer.split()
    if refusal != "0":
        chart.message(lines.table, lines.own, REFUSALS[int(refusal)], None, RED)
    if step.sent:
        receiver = lines.radios.get(step.sent[4:10], lines.peer)
        chart.message(lines.table, receiver, frame_words(step.sent), None, BLUE)
    if notice != "0":
        chart.message(lines.table, lines.own, notice_words(int(notice), code), None, MUTED)
    if ds != "-":
        chart.message(lines.table, lines.own, "to the distribution system: joined" if ds == "J"
                      else "to the distribution system: left", None, GREEN)


def part(chart, name):
    """A part of the chart begins: a line across, and its name at the left edge."""
    if chart.y > chart.top:
        chart.y += 16
        chart.canvas.line([(22, chart.y), (chart.canvas.width - 22, chart.y)], "#d8dee4",
                          head=False, thin=True, under=True)
    chart.canvas.text(22, chart.y + 28, name, 11.5, bold=True, fill=MUTED)


def play(chart, sides, steps, rows, parts=()):
    """Draws the steps. `rows` has each side's state, hold and query so far; a frame that the other
    side has sent is drawn once."""
    heard = set()
    for number, step in enumerate(steps):
        if number in parts:
            part(chart, parts[number])
        lines, now = sides[step.side], rows[step.side]
        event_message(chart, lines, step, heard)
        state = int(step.answer.split()[6]) or now[0]
        rejected = step.event[0] == "hear" and chart.show_hold
        row = state, step.hold, step.query[1]
        if row != now or rejected:
            chart.state_badge(lines.table, *row)
        rows[step.side] = row
        answer_messages(chart, lines, step)
        heard.add(step.sent)


def titled(width, title, about):
    canvas = Canvas(width, 0, title, about)
    canvas.text(34, 42, title, 20, bold=True)
    canvas.text(34, 65, about, fill=MUTED)
    return canvas


def ended(canvas, chart, width, words):
    """What a chart ends with: the names again, and a remark of some lines across its width."""
    chart.names(chart.y + 24)
    canvas.rectangle(34, chart.y + 48, width - 68, 26 + 22 * len(words), "#f6f8fa", "#d8dee4", 8)
    for at, line in enumerate(words):
        canvas.text(52, chart.y + 77 + 22 * at, line)
    canvas.height = chart.y + 98 + 22 * len(words)
    return canvas


def join():
    canvas = titled(1100, "A join", "A station and an access point that does not require RSNA, "
                    "each with its own table: what one writes the other hears, octet for octet.")
    own_s, table_s, table_a, own_a = 176, 428, 730, 1006
    chart = Chart(canvas, {own_s: "Station's own side", table_s: "Station's table",
                           table_a: "Access point's table", own_a: "AP's own side"})
    sides = {"station": Lines(own_s, table_s, table_a), "ap": Lines(own_a, table_a, table_s)}
    play(chart, sides, JOIN, {"station": (0, 0, 0), "ap": (0, 0, 0)}, PARTS)
    chart.names(chart.y + 24)
    canvas.height = chart.y + 48
    return canvas


def remark(canvas, y):
    """What a rejection without the element does, by the scene that is played for it."""
    canvas.rectangle(34, y, 500, 92, "#f6f8fa", "#d8dee4", 8)
    hold = NO_COMEBACK[-1].hold
    lines = (f"Without a comeback the hold is {hold:,} TU, a little over 2 s, for any status.",
             "A comeback of 0 is a time like any other. The module before this one",
             "took it for no time given, and held without end.")
    for at, words in enumerate(lines):
        canvas.text(52, y + 27 + 22 * at, words)


def comeback():
    canvas = titled(1100, "Rejected, and asked to come back", "A station in State 2, authenticated "
                    "with an access point, asks to associate. The comeback is how long it "
                    "must wait.")
    for left, title, steps in ((0, "Comeback 0: it may ask again at once", COMEBACK_0),
                               (550, "Comeback 5 TU: refused until they have passed", COMEBACK_5)):
        canvas.text(left + 34, 104, title, 14.5, bold=True)
        own, table, peer = left + 72, left + 288, left + 508
        chart = Chart(canvas, {own: "Own side", table: "Station's table", peer: "AP"}, True, 124)
        play(chart, {"station": Lines(own, table, peer)}, steps, {"station": (2, 0, 0)})
        chart.names(chart.y + 24)
        canvas.height = max(canvas.height, chart.y + 48)
        if left == 0:
            remark(canvas, chart.y + 62)
    canvas.line([(562, 92), (562, canvas.height - 24)], "#d8dee4", head=False, thin=True)
    return canvas
