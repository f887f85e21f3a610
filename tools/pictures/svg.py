"""A canvas that writes SVG and can say which of its words and lines overlap."""

import xml.sax.saxutils

FONT = "system-ui, -apple-system, 'Segoe UI', Roboto, 'Helvetica Neue', Arial, sans-serif"
INK, MUTED, EDGE, PAPER = "#1f2328", "#59636e", "#c8d0d9", "#ffffff"
BLUE, AMBER, RED, GREEN = "#0757b0", "#8a5300", "#b3202c", "#116329"
SIZE = 12.5
# Widths of characters in units of the font's size: those of DejaVu Sans, which is about the widest that a
# reader's system has for a sans font. What is not listed has the width of a small letter or of a capital.
WIDTHS = {sign: wide for wide, signs in (
    (0.295, "'ijlIJ"), (0.337, " ,./:;\\|"), (0.411, "f-()[]t!r"), (0.55, "szc?*_`\""), (0.592, "kvxy"),
    (0.838, "w#+<=>^~"), (0.99, "mMW%@")) for sign in signs}
SMALL, CAPITAL = 0.636, 0.787
BOLD = 1.14


def width_of(words, size=SIZE, bold=False):
    """An upper estimate of how wide the words are."""
    total = sum(WIDTHS.get(sign) or (CAPITAL if sign.isupper() else SMALL) for sign in words)
    return total * size * (BOLD if bold else 1)


def number(value):
    """A coordinate, without needless digits."""
    return f"{value:.1f}".rstrip("0").rstrip(".")


def attributes(**given):
    pairs = ((name.replace("_", "-"), value) for name, value in given.items() if value is not None)
    return "".join(f' {name}="{number(v) if isinstance(v, float) else v}"' for name, v in pairs)


class Canvas:
    """Words are kept as boxes and lines as segments; `over` says that words may lie on a line."""

    def __init__(self, width, height, title, about):
        self.width, self.height = width, height
        self.parts, self.under, self.words, self.segments = [], [], [], []
        self.head = (title, about)

    def put(self, name, content=None, more="", **given):
        """An element; `more` is SVG behind its words."""
        end = "/>" if content is None else f">{xml.sax.saxutils.escape(content)}{more}</{name}>"
        self.parts.append(f"<{name}{attributes(**given)}{end}")

    def rectangle(self, x, y, width, height, fill, stroke=None, radius=6, dashed=False):
        self.put("rect", x=float(x), y=float(y), width=float(width), height=float(height),
                 rx=radius, fill=fill, stroke=stroke, stroke_dasharray="5 4" if dashed else None)

    def text(self, x, y, words, size=SIZE, anchor="start", bold=False, fill=INK, over=False,
             tag=None):
        """Words, and behind them a tag in another colour."""
        wide = width_of(words + (f"  {tag}" if tag else ""), size, bold)
        left = x - {"start": 0, "middle": wide / 2, "end": wide}[anchor]
        self.words.append((words, left, y - size * 0.8, left + wide, y + size * 0.24, over))
        more = f'<tspan dx="7" fill="{AMBER}" font-weight="600">{tag}</tspan>' if tag else ""
        self.put("text", words, more, x=float(x), y=float(y), font_size=size, fill=fill,
                 text_anchor=None if anchor == "start" else anchor,
                 font_weight=600 if bold else None)

    def line(self, points, stroke=INK, dashed=False, head=True, thin=False, under=False):
        """A line through points, each step level or upright, with a head at its end; one that is
        under all else is drawn first."""
        self.segments += list(zip(points, points[1:]))
        path = " ".join(f"{number(float(x))},{number(float(y))}" for x, y in points)
        self.put("polyline", points=path, fill="none", stroke=stroke,
                 stroke_width=1 if thin else 1.6, stroke_linejoin="round",
                 stroke_dasharray="5 4" if dashed else None)
        if under:
            self.under.append(self.parts.pop())
        if head:
            self.arrow_head(points[-2], points[-1], stroke)

    def arrow_head(self, before, tip, fill):
        (x0, y0), (x, y) = before, tip
        dx, dy = (x > x0) - (x < x0), (y > y0) - (y < y0)
        corners = ((x, y), (x - 10 * dx - 4.5 * dy, y - 10 * dy - 4.5 * dx),
                   (x - 10 * dx + 4.5 * dy, y - 10 * dy + 4.5 * dx))
        self.put("polygon", fill=fill,
                 points=" ".join(f"{number(float(a))},{number(float(b))}" for a, b in corners))

    def faults(self):
        """Words on words, words on a line, words off the canvas."""
        found = []
        for at, (words, x0, y0, x1, y1, over) in enumerate(self.words):
            if x0 < 4 or y0 < 4 or x1 > self.width - 4 or y1 > self.height - 4:
                found.append(f"'{words}' leaves the picture")
            for other, a0, b0, a1, b1, _ in self.words[:at]:
                if x0 < a1 and a0 < x1 and y0 < b1 and b0 < y1:
                    found.append(f"'{words}' lies on '{other}'")
            for (ax, ay), (bx, by) in () if over else self.segments:
                if min(ax, bx) < x1 and x0 < max(ax, bx) + 0.1 and min(ay, by) < y1 \
                        and y0 < max(ay, by) + 0.1:
                    found.append(f"'{words}' lies on a line")
        return found

    def svg(self):
        title, about = (xml.sax.saxutils.escape(words) for words in self.head)
        drawn, self.parts = self.parts, []
        self.rectangle(0.5, 0.5, self.width - 1, self.height - 1, PAPER, EDGE, 10)
        panel, self.parts = self.parts, drawn
        return "\n".join([
            f'<svg xmlns="http://www.w3.org/2000/svg" width="{self.width}" height="{self.height}" '
            f'viewBox="0 0 {self.width} {self.height}" role="img" aria-labelledby="title about" '
            f'font-family="{FONT}">',
            f'<title id="title">{title}</title>', f'<desc id="about">{about}</desc>',
            *panel, *self.under, *self.parts, "</svg>", ""])
