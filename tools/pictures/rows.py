"""The rows of a scenario's chart: what comes to the table, what it says of it, and what becomes of the records."""

import collections

from tools import bench_input as bench
from tools.scenario import codes, merge, words as told

from .charts import Chart, shortened
from .frame_labels import frame_label, primitive_label
from .lifelines import FIRST
from .states import FILLS
from .svg import AMBER, BLUE, GREEN, INK, MUTED, PAPER, RED, width_of

LEFT, TABLE = 130, FIRST
SIDE, SIDE_WIDE = 60, 440
MOST_BADGES = 6
QUERIES = {1: "query sent", 2: "query due", 3: "query timed out"}
# Events of a line that did alike: the first and the last of them, how many, and who they are about.
Alike = collections.namedtuple("Alike", "first last count peer")


def _key(one):
    answer = one[1]
    return answer.refusal, answer.verdict, answer.notice, answer.code, answer.ds, answer.state, answer.written


def alike(played, say):
    """The events of a line, those together that did the same; clock steps are all together."""
    found = []
    for one in played:
        if found and (one[0].kind == "clock" or _key(found[-1][0]) == _key(one)):
            found[-1].append(one)
        else:
            found.append([one])
    made = []
    for group in found:
        names = [say(one[0].peer) if one[0].peer else "" for one in (group[0], group[-1])]
        made.append(Alike(group[0], group[-1], len(group), merge.joined(*names) if len(group) > 1 else names[0]))
    return made


def joined(one, label):
    """The words for some events that did alike: those of the first and the last, put together."""
    first, last = label(*one.first[:2]), label(*one.last[:2])
    return merge.joined(first, last) if merge.PART.split(first)[::2] == merge.PART.split(last)[::2] else first


class Drawn:
    """A chart that is being drawn, with the settings in force."""

    def __init__(self, canvas, lifelines):
        self.canvas, self.lifelines, self.settings = canvas, lifelines, None
        names = {LEFT: "Own side", TABLE: "Peer table", **{x: name for name, x in lifelines.names.items()}}
        self.chart = Chart(canvas, names, top=84)
        self.chart.y -= 10
        self.side = max(names) + SIDE

    def heading(self, text, bold=False):
        """A line across, and words of the scenario below it."""
        chart = self.chart
        chart.y += 20
        self.canvas.line([(22, chart.y), (self.canvas.width - 22, chart.y)], "#d8dee4", head=False, thin=True, under=True)
        chart.y += 22
        self.canvas.rectangle(20, chart.y - 15, self.canvas.width - 40, 21, PAPER, radius=0)
        self.canvas.text(22, chart.y, text, bold=bold, fill=INK if bold else MUTED, over=True)

    def line(self, row):
        """The events of one line."""
        before = row.played[0][2] if row.played else {}
        for one in alike(row.played, row.names.say):
            self.event(one, row, before)
            before = one.last[1].table

    def event(self, one, row, before):
        top, say = self.chart.y, row.names.say
        self.came(one, row)
        at = self.chart.y
        number = str(one.first[1].number) + (f"..{one.last[1].number}" if one.count > 1 else "")
        self.canvas.text(22, at + 4, number, 10.5, fill=MUTED, over=True)
        self.answered(one, row)
        self.records(before, one.last[1].table, say, at)
        self.chart.y = max(self.chart.y, top + 30)

    def came(self, one, row):
        """What comes to the table."""
        (event, answer, _), chart, say = one.first, self.chart, row.names.say
        if event.kind == "clock":
            chart.y += 10
            passed = sum(int.from_bytes(played.record[-2:], "little") for played, _, _ in row.played)
            chart.badge(TABLE, f"{passed} TU pass", PAPER, "clock")
        elif event.kind in ("prim", "links"):
            label = joined(one, lambda asked, _: primitive_label(asked, say))
            chart.message(LEFT, TABLE, label, f"primitive-{event.primitive}", AMBER)
        else:
            who = f"{one.peer}: " if one.peer and (self.lifelines.grouped or one.count > 1) else ""
            stopped = answer.verdict == "D" or answer.refusal > 0
            label = who + joined(one, lambda heard, _: frame_label(heard.frame)) + self.judged(one, say)
            chart.message(self.lifelines.at(event.peer), TABLE, label, None, RED if stopped else BLUE, stopped=stopped)

    def judged(self, one, say):
        """What is said of a frame beside its name: whether it was let in, where nothing else shows it."""
        event, answer, before = one.first
        if answer.refusal or answer.verdict == "D":
            return f", {told.decided(event, answer, before, self.settings, say)}"
        still = not answer.notice and not answer.octets and before == answer.table
        return ", admitted" if still else ""

    def answered(self, one, row):
        """What the table says of it."""
        (event, answer, before), chart, say = one.first, self.chart, row.names.say
        if answer.refusal and event.kind != "frame":
            chart.message(TABLE, LEFT, told.decided(event, answer, before, self.settings, say), None, RED)
        if event.kind == "clock":
            for line in told.reports(b"".join(said.octets for _, said, _ in row.played), say):
                chart.message(TABLE, LEFT, line.rsplit(", place", 1)[0], None, RED)
        elif answer.octets:
            who = f"to {one.peer}: " if one.count > 1 else ""
            chart.message(TABLE, self.lifelines.at(answer.octets[4:10]),
                          who + joined(one, lambda _, said: frame_label(said.octets)), None, BLUE)
        if answer.notice:
            name, code = codes.NOTICES[answer.notice]
            chart.message(TABLE, LEFT, name + (f", {code} {answer.code}" if code else ""), None, MUTED)
        if answer.ds in told.DS:
            chart.message(TABLE, LEFT, f"to the distribution system: {told.DS[answer.ds]}", None, GREEN)

    def records(self, before, after, say, y):
        """What became of the records, at the side."""
        places = {**before, **after}
        changed = [address for address in sorted(places, key=lambda known: places[known].place)
                   if before.get(address) != after.get(address)]
        texts = merge.lines([self.record(say(address), before.get(address), after.get(address)) for address in changed])
        if len(texts) > MOST_BADGES:
            texts[MOST_BADGES - 1:] = [f"and {len(texts) - MOST_BADGES + 1} more"]
        for at, text in enumerate(texts):
            text = shortened(text, self.canvas.width - self.side - 40)
            state = text.partition("State ")[2][:1]
            self.canvas.rectangle(self.side, y - 14 + 26 * at, width_of(text, 11.5) + 18, 22,
                                  FILLS[int(state)] if state.isdigit() else PAPER, "#8c959f", 11)
            self.canvas.text(self.side + 9, y + 1 + 26 * at, text, 11.5, over=True)
        self.chart.y = max(self.chart.y, y + 26 * (len(texts) - 1))

    def record(self, name, old, new):
        """A record in few words; of a hold only where there can be one, at a station."""
        if new is None:
            return f"{name}: place {old.place} free"
        parts = [f"{name}: State {new.state}"]
        if self.settings.role == bench.STATION and (new.hold or old and old.hold):
            parts.append(f"hold {new.hold} TU" if new.hold else "no hold")
        if new.exchange and (old is None or old.exchange != new.exchange):
            parts.append(told.exchange(new).partition(",")[0].replace(" request sent", " sent"))
        if new.query and (old is None or old.query != new.query):
            parts.append(QUERIES[new.query])
        if new.links and (old is None or old.links != new.links):
            parts.append(f"{len(new.links)} links")
        return ", ".join(parts)
