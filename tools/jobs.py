"""A job as docs/RULES.md has it: its bytes and the table of refusals 1 to 10. Written from the rules alone, so that it can be held
against the proved library."""
import array
import sys
from dataclasses import dataclass

MARK = b"RLY"
VERSION = 1
MOST_NODES = 64
MOST_FRAMES = 65_536
LONGEST_DELAY = 4_096
GREATEST_AMOUNT = 17_592_186_044_415
GREATEST_FRAME = 268_435_455
HEAD, RECORD, FRAME = 10, 19, 4
# The fields of a record in their order, with their widths in bytes.
WIDTHS = {"parent": 1, "delay": 2, "memory": 8, "rate": 8}
# What the program takes at most; the library has no such limit.
PROGRAM_BYTES, PROGRAM_NUMBERS = 32_768, 4_096


@dataclass(frozen=True)
class Node:
    parent: int
    delay: int = 0
    memory: int = 0
    rate: int = 0


@dataclass(frozen=True)
class Breach:
    """A rule of the table of refusals that a job breaks: its number, where (("node", i), ("frame", m), "nodes", "frames" or "bytes"), the
    field, its place in the bytes and its width, its value, the values that it may have, and one of these. Of a length the place is 0 and
    the width None; of a file longer than any job no more is known."""
    number: int
    where: object
    field: str
    place: int
    width: int
    value: object
    bound: str
    sound: object

    def found(self):
        """The value in words."""
        if self.width is None and self.value > MOST_BYTES:
            return f"more than {MOST_BYTES:,}"
        return self.value.hex(" ") if isinstance(self.value, bytes) else f"{self.value:,}"

    def sentence(self):
        return f"{self.field} is {self.found()}, where it must be {self.bound}"

    def mended(self, data):
        """The bytes with this field as it may be."""
        if self.width is None:
            return data[:self.sound] + bytes(max(self.sound - len(data), 0))
        sound = self.sound if isinstance(self.sound, bytes) else self.sound.to_bytes(self.width, "big")
        return data[:self.place] + sound + data[self.place + self.width:]


@dataclass(frozen=True)
class Job:
    """nodes[i - 1] is node i; node 0, the root, has no record. Any numbers that fit their fields may stand here."""
    nodes: tuple
    frames: tuple

    def node(self, i):
        return self.nodes[i - 1]

    def links(self):
        return range(1, len(self.nodes) + 1)

    def children(self, i):
        return [j for j in self.links() if self.node(j).parent == i]

    def leaves(self):
        inner = {node.parent for node in self.nodes}
        return [i for i in self.links() if i not in inner]

    def path(self, i):
        """Node i and the nodes above it but the root, upward."""
        found = []
        while i != 0:
            found.append(i)
            i = self.node(i).parent
        return found

    def called(self, i):
        """A node in words."""
        return f"node {i}, a {'screen' if i in self.leaves() else 'box'}"

    def last_slot(self):
        """H."""
        return len(self.frames) + max(self.node(i).delay for i in self.leaves())


def length(nodes, frames):
    """The bytes of a job with so many nodes, the root with them, and frames."""
    return HEAD + RECORD * (nodes - 1) + FRAME * frames


MOST_BYTES = length(MOST_NODES, MOST_FRAMES)


def to_bytes(job):
    head = MARK + VERSION.to_bytes(2, "big") + (len(job.nodes) + 1).to_bytes(1, "big") + len(job.frames).to_bytes(4, "big")
    records = [getattr(node, name).to_bytes(width, "big") for node in job.nodes for name, width in WIDTHS.items()]
    return head + b"".join(records) + big_endian(array.array("I", job.frames)).tobytes()


def big_endian(numbers):
    if sys.byteorder == "little":
        numbers.byteswap()
    return numbers


def head_breach(data):
    """The first of refusals 1 to 6 that applies to the bytes, or None."""
    if len(data) < HEAD:
        return Breach(1, "bytes", "the length in bytes", 0, None, len(data), f"at least {HEAD}", HEAD)
    if data[:3] != MARK:
        return Breach(2, "bytes", "the mark", 0, 3, data[:3], f"{MARK.hex(' ')}, the letters RLY", MARK)
    version, nodes, frames = (int.from_bytes(data[a:b], "big") for a, b in ((3, 5), (5, 6), (6, 10)))
    if version != VERSION:
        return Breach(3, "bytes", "the version", 3, 2, version, str(VERSION), VERSION)
    found = count_breaches(nodes, frames)
    if found:
        return found[0]
    due = length(nodes, frames)
    if len(data) != due:
        return Breach(6, "bytes", "the length in bytes", 0, None, len(data), f"{due:,} with {nodes} nodes and {frames:,} frames", due)
    return None


def count_breaches(nodes, frames):
    """Refusals 4 and 5, of the counts n and M."""
    found = []
    if not 2 <= nodes <= MOST_NODES:
        sound = min(max(nodes, 2), MOST_NODES)
        found.append(Breach(4, "nodes", "the node count, with the root,", 5, 1, nodes, f"2 to {MOST_NODES}", sound))
    if not 1 <= frames <= MOST_FRAMES:
        found.append(Breach(5, "frames", "the frame count", 6, 4, frames, f"1 to {MOST_FRAMES:,}", min(max(frames, 1), MOST_FRAMES)))
    return found


def field_breaches(job):
    """Refusals 7 to 10, all places in the order of the table."""
    inner = {node.parent for node in job.nodes}
    found = []
    for i in job.links():
        node, place = job.node(i), HEAD + RECORD * (i - 1)
        kind, delay = ("box", 0) if i in inner else ("screen", LONGEST_DELAY)
        bounds = {"parent": (7, i - 1), "delay": (8, delay), "memory": (9, GREATEST_AMOUNT), "rate": (9, GREATEST_AMOUNT)}
        for name, (number, most) in bounds.items():
            value, width = getattr(node, name), WIDTHS[name]
            if value > most:
                field = f"the {name} of node {i}, a {kind},"
                found.append(Breach(number, ("node", i), field, place, width, value, f"0 to {most:,}" if most else "0", most))
            place += width
    for m, size in enumerate(job.frames, 1):
        if size > GREATEST_FRAME:
            place, bound = length(len(job.nodes) + 1, m - 1), f"0 to {GREATEST_FRAME:,}"
            found.append(Breach(10, ("frame", m), f"the size of frame {m:,}", place, FRAME, size, bound, GREATEST_FRAME))
    return sorted(found, key=lambda breach: breach.number)


def breaches(job):
    """Every rule that the job's bytes would break, in the order of the table."""
    return count_breaches(len(job.nodes) + 1, len(job.frames)) + field_breaches(job)


def from_bytes(data):
    """The job, and the rules that it breaks, of 7 to 10. Bytes refused by 1 to 6 have no fields: the job is None."""
    breach = head_breach(data)
    if breach:
        return None, [breach]
    first_frame = length(data[5], 0)
    nodes = []
    for at in range(HEAD, first_frame, RECORD):
        fields = []
        for width in WIDTHS.values():
            fields.append(int.from_bytes(data[at:at + width], "big"))
            at += width
        nodes.append(Node(*fields))
    job = Job(tuple(nodes), tuple(big_endian(array.array("I", data[first_frame:]))))
    return job, field_breaches(job)


def too_large_for_program(job, size):
    """Whether the program refuses an accepted job of so many bytes by 15."""
    return size > PROGRAM_BYTES or len(job.nodes) * (job.last_slot() + 1) > PROGRAM_NUMBERS
