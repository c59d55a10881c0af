"""What all pictures are drawn with: SVG of a fixed width, text, panels with two axes, legends."""
from xml.sax.saxutils import escape, quoteattr

from words import count

WIDTH = 960
LEFT, RIGHT = 92, 824
MOST_POINTS = 900
LOWER, UPPER, PLANNED, BEFORE, AFTER = "#009E73", "#8A5A00", "#0072B2", "#E9A15B", "#0072B2"
INK, FAINT, WRONG, PAPER = "#222222", "#D9D9D9", "#C00000", "#FFFFFF"
UNITS = (("kB", 1_000), ("MB", 1_000_000), ("GB", 1_000_000_000), ("TB", 1_000_000_000_000))


def printable(words):
    """Words without characters that XML can't hold."""
    return "".join(letter if letter.isprintable() and not 0xD800 <= ord(letter) < 0xE000 else "?" for letter in words)


def unit(greatest):
    """The largest unit that leaves the greatest number at 10 or more, and its bytes."""
    return max([("bytes", 1), *((name, per) for name, per in UNITS if greatest >= 10 * per)], key=lambda one: one[1])


def text(x, y, words, anchor="start", more=""):
    return f'<text x="{x:g}" y="{y:g}" text-anchor="{anchor}"{more}>{escape(printable(words))}</text>'


def path(d, look, name=None):
    return f'<path{f" id={quoteattr(name)}" if name else ""} d="{d}" {look}/>'


def circle(x, y, colour=INK):
    return f'<circle cx="{x:g}" cy="{y:g}" r="4" fill="{PAPER}" stroke="{colour}" stroke-width="1.5"/>'


def group(name, parts):
    return [f'<g id="{name}">', *parts, "</g>"]


def svg(title, told, parts, height, width=WIDTH):
    """A whole picture, with its title, what it tells in a line, and its parts."""
    head = f'<svg xmlns="http://www.w3.org/2000/svg" width="{width}" height="{height}" viewBox="0 0 {width} {height}" '
    head += f'font-family="Helvetica, Arial, \'DejaVu Sans\', sans-serif" font-size="13" fill="{INK}">'
    first = [f"<title>{escape(printable(title))}</title>", f"<desc>{escape(printable(told))}</desc>"]
    first += [f'<rect width="{width}" height="{height}" fill="{PAPER}"/>']
    first += [text(LEFT, 40, title, more=' font-size="21" font-weight="bold"'), text(LEFT, 64, told)]
    return "\n".join([head, *first, *parts, "</svg>", ""])


def ticks(low, high, most):
    """Round whole numbers from low to high, at most so many and one more."""
    size = 1
    while (high - low) / size > most:
        size = size * 5 // 2 if str(size)[0] == "2" else size * 2
    return range(-(-low // size) * size, high + 1, size)


def legend(y, entries):
    """Samples of lines, each with its words."""
    out, x = [], LEFT
    for words, sample in entries:
        out += [path(f"M{x:g} {y - 4}h30", sample), text(x + 37, y, words)]
        x += 37 + 7.2 * len(words) + 24
    return out


class Panel:
    """A part of a picture: numbers from first to last across, values from low to high upward, between the heights top and foot."""

    def __init__(self, top, foot, first, last, low, high):
        self.top, self.foot, self.first, self.last = top, foot, first, last
        self.low, self.high = low, max(high, low + 1)
        self.unit, self.per = unit(max(abs(self.low), self.high))

    def x(self, at):
        return round(LEFT + (RIGHT - LEFT) * (at - self.first) / max(self.last - self.first, 1), 1)

    def y(self, value):
        return round(self.foot - (self.foot - self.top) * (value - self.low) / (self.high - self.low), 1)

    def frame(self, label, across="slot", plain=False):
        """Grid, ticks and labels of both axes; values that are no bytes are plain."""
        per, unit = (1, "") if plain else (self.per, f" ({self.unit})")
        out = []
        for value in ticks(self.low, self.high, 6):
            y = self.y(value)
            out += [path(f"M{LEFT} {y:g}H{RIGHT}", f'stroke="{FAINT}"'), text(LEFT - 8, y + 4, f"{value / per:,.10g}", "end")]
        for at in ticks(self.first, self.last, 12 if self.last < 100_000 else 8):
            x = self.x(at)
            out += [path(f"M{x:g} {self.foot}v5", f'stroke="{INK}"'), text(x, self.foot + 19, count(at), "middle")]
        out.append(path(f"M{LEFT} {self.top}V{self.foot}H{RIGHT}", f'fill="none" stroke="{INK}"'))
        out.append(text((LEFT + RIGHT) / 2, self.foot + 37, across, "middle"))
        middle = (self.top + self.foot) / 2
        out.append(text(26, middle, f"{label}{unit}", "middle", f' transform="rotate(-90 26 {middle:g})"'))
        return out

    def line(self, points):
        """A line through points."""
        return "M" + "L".join(f"{self.x(at):g} {self.y(value):g}" for at, value in points)

    def steps(self, row, step):
        """The bytes of each slot as level pieces, slot k from k - 1 to k; the greatest of each group of slots. row[0] is slot 1's."""
        out = f"M{self.x(self.first):g} {self.y(0):g}"
        for k in range(self.first, self.last, step):
            end = min(k + step, self.last)
            out += f"V{self.y(max(row[k:end])):g}H{self.x(end):g}"
        return out + f"V{self.y(0):g}"
