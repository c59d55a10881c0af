"""A job as a text that people write and read, and a film's frame sizes as analysis tools print them."""
import os
import re

import jobs
from files import Problem, read_file, spoken
from words import shown

MOST_BYTES = 256_000_000
MOST_WARNINGS = 10
LIKE = "'node 1 parent 0 delay 0 memory 4 rate 5'"
# A field of ffprobe's that holds a frame's size.
SIZE = re.compile(r"(?:pkt_)?size=(.*)")
# What a frame of sound is told by.
SOUND = re.compile(r"(?:media|codec)_type=(?!video)(.*)")
# What looks like a text: characters of UTF-8, the last perhaps cut off, without controls but those between words, lines and pages.
TEXT = re.compile(rb"(?:[\t\n\f\r -~]|[\xc2-\xf4][\x80-\xbf]{1,3})+[\xc2-\xf4]?")
# What stands before the side data of a frame or a packet in its line, or in a line of theirs.
SIDE = "side_data"
BEGIN, END = re.compile(r"\[([A-Z_]+)\]"), re.compile(r"\[/([A-Z_]+)\]")


def is_text(data):
    return TEXT.fullmatch(data) is not None


def lines_of(name):
    """The lines of a file that aren't empty, each with its place, 'FILE:LINE'. A comment begins with a # at the start or after a space."""
    data = read_file(name, MOST_BYTES)
    if len(data) > MOST_BYTES:
        raise Problem(f"{spoken(name)}: more than {MOST_BYTES:,} bytes, which no text of a job has")
    text = data.decode("utf-8-sig", "replace")
    for at, line in enumerate(re.split(r"\r\n|\r|\n", text), 1):
        line = re.sub(r"(^|\s)#.*", "", line).strip()
        if line:
            yield f"{spoken(name)}:{at}", line


def number(place, what, word, width):
    """A word as a number that fits in so many bytes."""
    if not re.fullmatch(r"[0-9]+", word):
        raise Problem(f"{place}: {what} '{shown(word)}' is not a whole number")
    digits = word.lstrip("0") or "0"
    most = 256**width - 1
    if len(digits) > 20 or int(digits) > most:
        held = f"{width} byte{'s' if width > 1 else ''}, which hold{'' if width > 1 else 's'} at most {most}"
        raise Problem(f"{place}: {what} {shown(word)} does not fit in {held}")
    return int(digits)


class Text:
    """A text as it is read: nodes by number, sizes, and the place of each."""

    def __init__(self, name):
        self.name = name
        self.nodes, self.frames, self.places = {}, [], {}
        self.film = None  # The place of the line that says where the film is.
        lines = lines_of(name)
        place = f"{spoken(name)}:1"
        for place, line in lines:
            words = line.split()
            if words[0] == "node":
                self.take_node(place, words)
            elif words[0] == "film":
                self.take_film(place, line)
            elif words == ["frames"]:
                self.begin_film(place)
                self.take_sizes(lines)
            else:
                raise Problem(f"{place}: '{shown(line)}' is not understood; a line reads {LIKE}, 'film FILE' or 'frames'")
        if self.film is None:
            raise Problem(f"{place}: no film: add a line 'frames' and the sizes below it, or a line 'film FILE'")
        self.see_all_nodes()

    def take_node(self, place, words):
        if len(words) < 2:
            raise Problem(f"{place}: the node's number is missing; a line reads {LIKE}")
        i = number(place, "node", words[1], 1)
        if i == 0:
            raise Problem(f"{place}: node 0 is the root, which has no line")
        if i == 255:
            raise Problem(f"{place}: node 255 can't be counted in 1 byte with the root")
        if i in self.nodes:
            raise Problem(f"{place}: node {i} has a line already, {self.places['node', i]}")
        fields = {}
        for at in range(2, len(words), 2):
            name = words[at]
            if name not in jobs.WIDTHS:
                raise Problem(f"{place}: '{shown(name)}' is not one of {', '.join(jobs.WIDTHS)}")
            if name in fields:
                raise Problem(f"{place}: {name} is given twice")
            if at + 1 == len(words):
                raise Problem(f"{place}: {name} has no number")
            fields[name] = number(place, name, words[at + 1], jobs.WIDTHS[name])
        if "parent" not in fields:
            raise Problem(f"{place}: parent is missing; a line reads {LIKE}")
        self.nodes[i] = jobs.Node(**fields)
        self.places["node", i] = place

    def begin_film(self, place):
        if self.film is not None:
            raise Problem(f"{place}: the film is given already, {self.film}")
        self.film = self.places["frames"] = place

    def take_film(self, place, line):
        self.begin_film(place)
        name = line[len("film"):].strip()
        if not name:
            raise Problem(f"{place}: the film's file is missing; a line reads 'film FILE'")
        if name == self.name == "-":
            raise Problem(f"{place}: the film can't be on standard input, where the text is")
        path = name if "-" in (name, self.name) else os.path.join(os.path.dirname(self.name), name)
        try:
            lines = list(lines_of(path))
        except Problem as problem:
            raise Problem(f"{place}: {problem}") from None
        self.take_sizes(iter(lines))

    def take_sizes(self, lines):
        for place, size in sizes(lines):
            self.frames.append(number(place, "size", size, jobs.FRAME))
            self.places["frame", len(self.frames)] = place
            if len(self.frames) == jobs.MOST_FRAMES + 1:
                self.places["frames"] = place

    def see_all_nodes(self):
        self.places["nodes"] = self.places.get(("node", jobs.MOST_NODES), self.film)
        for i in range(1, max(self.nodes, default=0)):
            if i not in self.nodes:
                later = min(j for j in self.nodes if j > i)
                raise Problem(f"{self.places['node', later]}: node {later} has a line, but node {i} has none")

    def job(self):
        return jobs.Job(tuple(self.nodes[i] for i in sorted(self.nodes)), tuple(self.frames))


def sizes(lines):
    """The sizes in lines as ffprobe prints them, each with its place: numbers alone, csv with or without its first column and a comma at
    the end, compact, and sections such as [FRAME] or [PACKET], of which the other fields are passed over. So are side data."""
    for place, line in lines:
        found = BEGIN.fullmatch(line)
        if found:
            yield section(place, found[1], lines)
            continue
        cells = re.split(r"[|,]", re.sub(r"[|,]$", "", line))
        if cells[0] == SIDE:
            continue
        if SIDE in cells:
            cells = cells[:cells.index(SIDE)]
        if cells[0] in ("frame", "packet"):
            cells = cells[1:]
        refuse_sound(place, cells)
        named = [SIZE.fullmatch(cell) for cell in cells]
        if any(named):
            cells = [found[1] for found in named if found]
        if len(cells) != 1:
            raise Problem(f"{place}: size '{shown(line)}' is not a whole number; a line has one size, as 'job write --help' shows")
        yield place, cells[0].strip()


def section(place, name, lines):
    """The place and the size in a section of ffprobe's, which has been begun; sections within it are passed over."""
    inner, found = [name], None
    for at, line in lines:
        begun, ended = BEGIN.fullmatch(line), END.fullmatch(line)
        if begun and begun[1] in inner:
            break
        if begun:
            inner.append(begun[1])
        elif ended and ended[1] == inner[-1]:
            inner.pop()
            if not inner:
                break
        elif len(inner) == 1:
            refuse_sound(at, [line])
            size = SIZE.fullmatch(line)
            found = (at, size[1].strip()) if size else found
    if inner:
        raise Problem(f"{place}: [{name}] is not ended by [/{name}]; the film's sizes are cut off or mixed up")
    if found is None:
        raise Problem(f"{place}: [{name}] has no line 'size=' or 'pkt_size='; 'job write --help' shows how ffprobe prints them")
    return found


def refuse_sound(place, cells):
    for cell in cells:
        if found := SOUND.fullmatch(cell):
            raise Problem(f"{place}: a frame of {shown(found[1])}, not of video; give ffprobe '-select_streams v:0'")


def text_of(job, broken):
    """A job as text."""
    out = [f"# {len(job.nodes) + 1} nodes with the root, {len(job.frames)} frames, {sum(job.frames)} bytes in all"]
    out += [f"# refusal {breach.number}: {breach.sentence()}" for breach in broken[:MOST_WARNINGS]]
    wide = {name: max(len(str(getattr(node, name))) for node in job.nodes) for name in jobs.WIDTHS}
    for i in job.links():
        fields = [f"{name} {getattr(job.node(i), name):>{wide[name]}}" for name in jobs.WIDTHS]
        out.append("  ".join([f"node {i:>{len(str(len(job.nodes)))}}"] + fields))
    return "\n".join(out + ["frames"] + [str(size) for size in job.frames] + [""])
