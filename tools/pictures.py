"""The pictures: one link, the whole tree, constant rates, one leaf."""
import drawing
from curves import rises
from drawing import AFTER, BEFORE, FAINT, INK, LEFT, LOWER, MOST_POINTS, PAPER, PLANNED, RIGHT, UPPER, WRONG, Panel, circle, path, text
from words import count, counted, share

MOST_CIRCLES = 100
# Below this share of its panel's height the space between two curves can't be seen.
SEEN = 8
LOOKS = {
    "upper": f'fill="none" stroke="{UPPER}" stroke-width="1.6" stroke-dasharray="7 4"',
    "planned": f'fill="none" stroke="{PLANNED}" stroke-width="2.4"',
    "lower": f'fill="none" stroke="{LOWER}" stroke-width="1.8" stroke-dasharray="2 2.5"',
}
TELLS = {"upper": "upper curve: more would overfill a box", "planned": "planned", "lower": "lower curve: less would starve a screen"}


def link(film, job, curves, i, row, slots):
    """One link: the curves and the planned row, or where they cross if there is none; the bytes of each slot before and after smoothing."""
    first, last = slots or (0, curves.last)
    step = -(-(last - first) // MOST_POINTS)
    node = job.node(i)
    told = f"a {'screen' if i in job.leaves() else 'box'} with {counted(node.memory, 'byte')} of memory, under "
    told += f"{f'node {node.parent}' if node.parent else 'the store'}; film of {counted(len(job.frames), 'frame')}, "
    told += counted(curves.total(), "byte")
    parts = drawing.group("carried", carried(curves, i, row, first, last, step))
    parts += drawing.group("sent", sent(rises(curves.demand(i)), rises(row) if row else None, first, last, step))
    return drawing.svg(f"{film}: link into node {i}", told, parts, 740)


def chosen_slots(lower, upper, first, last, step):
    """Of each group of slots the one in which the curves are nearest, or crossed furthest, and both ends."""
    groups = (range(k, min(k + step, last)) for k in range(first, last, step))
    nearest = {min(group, key=lambda k: upper[k] - lower[k]) for group in groups}
    return sorted(nearest | {first, last})


def carried(curves, i, row, first, last, step):
    """The curves by what they carry; by their distance above the lower one where that could not be seen otherwise."""
    rows = {"upper": curves.upper(i), "planned": row, "lower": curves.lower(i)}
    lower, upper, crossing = rows["lower"], rows["upper"], curves.crossing(i)
    slots = chosen_slots(lower, upper, first, last, step)
    apart = {name: max(abs(values[k] - lower[k]) for k in slots) for name, values in rows.items() if values}
    above = any(0 < SEEN * most < max(upper[last], lower[last]) - lower[first] for most in apart.values())
    base = lower if above else [0] * len(lower)
    rows = {name: {k: values[k] - base[k] for k in slots} for name, values in rows.items() if values}
    values = [value for points in rows.values() for value in points.values()]
    # An upper curve far above the planned row would press that to the foot: it then runs along the top.
    pressed = above and 0 < SEEN * apart.get("planned", 0) < apart["upper"]
    panel = Panel(118, 390, first, last, min(values), 2 * apart["planned"] if pressed else max(values))
    out = panel.frame("above the lower curve" if above else "carried by the end of the slot")
    out += drawing.legend(104, [(TELLS[name], LOOKS[name]) for name in rows])
    for name, points in rows.items():
        out.append(path(panel.line((k, min(value, panel.high)) for k, value in points.items()), LOOKS[name], name))
    if pressed:
        name, per = drawing.unit(apart["upper"])
        out.append(text(RIGHT + 8, panel.top + 4, f"upper: to {apart['upper'] / per:,.0f} {name}", more=' id="pressed"'))
    if crossing is not None and first <= crossing <= last:
        missing = lower[crossing] - upper[crossing]
        out.append(path(f"M{panel.x(crossing):g} {panel.top}V{panel.foot}", f'stroke="{WRONG}" stroke-dasharray="3 3"', "crossing"))
        out.append(circle(panel.x(crossing), panel.y(lower[crossing] - base[crossing]), WRONG))
        told = f"the curves cross first in slot {count(crossing)}, by {counted(missing, 'byte')}"
        side, shift = ("start", 8) if panel.x(crossing) < (LEFT + RIGHT) / 2 else ("end", -8)
        out.append(text(panel.x(crossing) + shift, panel.top + 16, told, side, f' id="crossing-label" fill="{WRONG}" font-weight="bold"'))
    return out


def sent(before, after, first, last, step):
    """The bytes of each slot before and after smoothing; without a plan, before it alone. The peaks are those of all slots."""
    rows = {"before": before, **({"after": after} if after else {})}
    peaks = {name: max(row) for name, row in rows.items()}
    panel = Panel(482, 680, first, last, 0, max(peaks.values()) * 9 // 8)
    looks = {"before": f'stroke="{BEFORE}" stroke-width="9"', "after": f'stroke="{AFTER}" stroke-width="2.2"'}
    group = f", the greatest of each {step} slots" if step > 1 else ""
    out = panel.frame("sent in the slot") + drawing.legend(466, [(f"{name} smoothing{group}", looks[name]) for name in rows])
    fills = {"before": f'fill="{BEFORE}" stroke="{BEFORE}" stroke-width="0.5"', "after": f'fill="none" stroke="{AFTER}" stroke-width="1.8"'}
    out += [path(panel.steps(row, step), fills[name], name) for name, row in rows.items()]
    for name, row in rows.items():
        y, slot = panel.y(peaks[name]), row.index(peaks[name]) + 1
        out.append(path(f"M{LEFT} {y:g}H{RIGHT}", f'stroke="{INK}" stroke-width="1" stroke-dasharray="5 3"', f"peak-{name}"))
        if first < slot <= last:
            out.append(circle(panel.x(slot - 0.5), y))
        # The labels stand beside the lines; that of the lower line moves down where the two would meet.
        beside = y if name == "before" else max(y, panel.y(peaks["before"]) + 42)
        out.append(text(RIGHT + 8, beside - 1, f"peak {name}", more=' font-weight="bold"'))
        out.append(text(RIGHT + 8, beside + 15, counted(peaks[name], "byte"), more=f' id="peak-{name}-label"'))
        if name == "after" and peaks["before"]:
            out.append(text(RIGHT + 8, beside + 31, f"{share(*peaks.values())} of before"))
    return out


class Layout:
    """Where the nodes of a tree stand: the store at the left, each screen in a line of its own, a box in the middle of its children."""

    ROW, TOP, SIDE, ROOT, BOX, LINK = 58, 130, 30, 74, 176, 170

    def __init__(self, job):
        self.job, self.rows, self.line = job, {}, 0
        self.depths = {0: 0}
        for i in job.links():
            self.depths[i] = self.depths[job.node(i).parent] + 1
        self.put(0)
        self.width = max(drawing.WIDTH, self.x(max(self.depths.values())) + self.BOX + self.SIDE)
        self.height = self.TOP + self.ROW * self.line + 40

    def put(self, i):
        """Places a node and those below it; the deepest tree has 64 levels."""
        below = self.job.children(i)
        if below:
            self.rows[i] = sum(self.put(j) for j in below) / len(below)
        else:
            self.rows[i] = self.line
            self.line += 1
        return self.rows[i]

    def x(self, depth):
        """The left side of a box at a depth."""
        return self.SIDE + (self.ROOT + self.LINK * depth + self.BOX * (depth - 1) if depth else 0)

    def y(self, i):
        return self.TOP + self.ROW * (self.rows[i] + 0.5)


def tree(film, job, curves, plan, held, starving, slow):
    """The whole tree. The links' widths are their peaks; each box shows its memory and how full it gets. starving is the first shortage of
    a job without a plan, slow has the links below the least rate."""
    layout = Layout(job)
    peak = max(job.frames)
    wide = max([peak, *plan.peaks, 1])
    parts = drawing.legend(96, [("peak before smoothing", f'stroke="{BEFORE}" stroke-width="9"'),
                                ("after", f'stroke="{AFTER}" stroke-width="5"'),
                                ("too little memory or rate", f'stroke="{WRONG}" stroke-width="2.5" stroke-dasharray="6 4"')])
    for i in job.links():
        parts += drawing.group(f"link-{i}", tree_link(job, layout, i, peak, plan.peaks, wide, starving, slow))
    x, y = layout.x(0), layout.y(0)
    parts.append(f'<rect x="{x:g}" y="{y - 20:g}" width="{layout.ROOT}" height="40" rx="6" fill="{FAINT}" stroke="{INK}"/>')
    parts.append(text(x + layout.ROOT / 2, y + 5, "the store", "middle"))
    for i in job.links():
        parts += drawing.group(f"node-{i}", tree_node(job, layout, i, held, starving))
    told = f"{counted(len(job.nodes), 'link')}, {counted(len(job.leaves()), 'screen')}; film of {counted(len(job.frames), 'frame')}, "
    told += counted(curves.total(), "byte")
    return drawing.svg(f"{film}: the tree", told, parts, round(layout.height), round(layout.width))


def tree_link(job, layout, i, peak, peaks, wide, starving, slow):
    """From its parent's right side to the node's left side, with both peaks above it."""
    parent, node = job.node(i).parent, job.node(i)
    ends = layout.x(layout.depths[parent]) + (layout.BOX if parent else layout.ROOT), layout.x(layout.depths[i])
    high, low = layout.y(parent), layout.y(i)
    bend = ends[0] + 26
    d = f"M{ends[0]:g} {high:g}L{bend:g} {low:g}H{ends[1]:g}"
    out = [path(d, f'fill="none" stroke="{BEFORE}" stroke-width="{max(26 * peak / wide, 0.5):.2f}" stroke-linejoin="round"', f"before-{i}")]
    words = f"{count(peak)}"
    if peaks:
        after = peaks[i - 1]
        out.append(path(d, f'fill="none" stroke="{AFTER}" stroke-width="{max(26 * after / wide, 0.5):.2f}" stroke-linejoin="round"',
                        f"after-{i}"))
        words = f"{count(peak)} → {count(after)}"
    out.append(text(bend + 6, low - 17, words, more=' font-size="11"'))
    marks = [f"rate {count(node.rate)}, needs {count(slow[i])}"] if i in slow else []
    marks += [f"starves in slot {count(starving.slot)}"] if starving and i == starving.leaf else []
    if marks:
        look = f'fill="none" stroke="{WRONG}" stroke-width="2.5" stroke-dasharray="6 4"'
        out += [path(d, look, f"refused-{i}"), text(bend + 6, low + 25, "; ".join(marks), more=f' font-size="11" fill="{WRONG}"')]
    return out


def tree_node(job, layout, i, held, starving):
    """Its memory, and a bar as full as it gets."""
    x, y, node = layout.x(layout.depths[i]), layout.y(i), job.node(i)
    short = starving is not None and i in starving.nodes
    edge = f'stroke="{WRONG}" stroke-width="2.5" stroke-dasharray="6 4"' if short else f'stroke="{INK}"'
    out = [f'<rect x="{x:g}" y="{y - 22:g}" width="{layout.BOX}" height="44" rx="6" fill="{PAPER}" {edge}/>']
    name = f"{'screen' if i in job.leaves() else 'box'} {i}" + (f", delay {node.delay}" if i in job.leaves() else "")
    out.append(text(x + 8, y - 7, name, more=' font-weight="bold" font-size="12"'))
    full = f", {share(node.memory, held[i - 1])} full" if held is not None and node.memory else ""
    out.append(text(x + 8, y + 8, f"{count(node.memory)} B{full}", more=f' id="memory-{i}" font-size="11"'))
    if held is not None and node.memory:
        out.append(f'<rect x="{x + 8:g}" y="{y + 13:g}" width="{layout.BOX - 16}" height="5" fill="{FAINT}"/>')
        wide = (layout.BOX - 16) * held[i - 1] / node.memory
        out.append(f'<rect id="held-{i}" x="{x + 8:g}" y="{y + 13:g}" width="{wide:.2f}" height="5" fill="{PLANNED}"/>')
    return out


def rates(film, job, rates, lines, bend):
    """Constant rates: the wait and the memory of one screen over the rate; bend is the place of the rate that needs least memory, or None.
    Rates without a delay are marked at the foot."""
    answered = [(rate, delay, memory) for rate, (number, delay, memory) in zip(rates, lines) if number == 0]
    parts = []
    for name, at, label, top in (("delay", 1, "wait, slots", 100), ("memory", 2, "memory", 420)):
        panel = Panel(top, top + 230, min(rates), max(rates), 0, max((line[at] for line in answered), default=1))
        own = panel.frame(label, "rate, bytes a slot", name == "delay")
        own.append(path(panel.line((line[0], line[at]) for line in answered), LOOKS["planned"], name) if answered else "")
        own += [circle(panel.x(line[0]), panel.y(line[at])) for line in answered if len(answered) <= MOST_CIRCLES]
        for rate, (number, *_) in zip(rates, lines):
            if number:
                own.append(text(panel.x(rate), panel.foot - 6, "×", "middle", f' fill="{WRONG}" font-weight="bold"'))
        if bend is not None:
            rate, value = rates[bend], lines[bend][at]
            own.append(path(f"M{panel.x(rate):g} {panel.top}V{panel.foot}", f'stroke="{WRONG}" stroke-dasharray="3 3"', f"bend-{name}"))
            words = f"{counted(value, 'slot')}" if name == "delay" else counted(value, "byte")
            look = f' id="bend-{name}-label" fill="{WRONG}" font-weight="bold"'
            own.append(text(panel.x(rate) + 6, panel.top + 14, f"{words} at rate {count(rate)}", more=look))
        parts += drawing.group(f"{name}-panel", own)
    told = f"film of {counted(len(job.frames), 'frame')}, {counted(sum(job.frames), 'byte')}"
    told += "; × marks a rate at which no delay serves" if len(answered) < len(rates) else ""
    return drawing.svg(f"{film}: one screen behind a link of constant rate", told, parts, 720)


def leaf(film, job, curves, leaf, bound):
    """One leaf: for each link a line of slots, and in it those in which the leaf binds the lower or the upper curve. bound has stretches of
    slots by link and curve."""
    panel = Panel(112, 112 + 44 * len(job.nodes), 0, curves.last, 0, 1)
    looks = {"lower": (LOWER, 9), "upper": (UPPER, 23)}
    parts = drawing.legend(96, [(f"binds the {name} curve", f'stroke="{colour}" stroke-width="9"') for name, (colour, _) in looks.items()])
    for i in job.links():
        top = panel.top + 44 * (i - 1)
        parts.append(text(LEFT - 8, top + 25, f"node {i}", "end"))
        parts.append(path(f"M{LEFT} {top}H{RIGHT}", f'stroke="{FAINT}"'))
        for name, (colour, down) in looks.items():
            pieces = "".join(f"M{panel.x(first - 0.5):g} {top + down}H{panel.x(last + 0.5):g}v11H{panel.x(first - 0.5):g}Z"
                             for first, last in bound[i, name])
            parts.append(path(pieces or f"M{LEFT} {top + down}", f'fill="{colour}" stroke="none"', f"{name}-{i}"))
    parts += [path(f"M{LEFT} {panel.top}V{panel.foot}H{RIGHT}", f'fill="none" stroke="{INK}"')]
    for at in drawing.ticks(0, curves.last, 12):
        parts += [path(f"M{panel.x(at):g} {panel.foot}v5", f'stroke="{INK}"'), text(panel.x(at), panel.foot + 19, count(at), "middle")]
    parts.append(text((LEFT + RIGHT) / 2, panel.foot + 37, "slot", "middle"))
    node = job.node(leaf)
    told = f"where its terms are the curves of the link into each node; delay {node.delay}, memory {counted(node.memory, 'byte')}"
    return drawing.svg(f"{film}: what screen {leaf} brings", told, parts, panel.foot + 56)
