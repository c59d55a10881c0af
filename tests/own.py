"""What docs/RULES.md says, once more for the tests and slot by slot, and the program's answers. It shares nothing with tools/."""
import bisect
import itertools
import subprocess

from cases import GREATEST_FRAME, LONGEST_DELAY, PROGRAM, frames_of

NEVER = float("inf")


class Answers:
    """Both answers to a job, read from the program's lines. A job that is refused as a whole has its number in both."""

    def __init__(self, data):
        done = subprocess.run([PROGRAM], input=data, capture_output=True)
        self.text = done.stdout
        self.lines = [[int(word) for word in line.split()] for line in done.stdout.decode().splitlines()]
        self.memory, self.rate = self.lines[0], self.lines[-1]
        self.peaks, self.rows = [line[1] for line in self.lines[1:-1]], [line[2:] for line in self.lines[1:-1]]
        self.memories = self.rate[3:]
        self.status = 1 if any(self.numbers()) else 0

    def numbers(self):
        return self.memory[0], self.rate[0]


class Rules:
    """A job's records (parent, delay, memory, rate) and frames by the words of the rules. With one leaf alone all others play nothing and
    have all the room there is."""

    def __init__(self, records, frames, only=None):
        self.records, self.frames, self.only = records, frames, only
        self.links = range(1, len(records) + 1)
        self.sums = [0, *itertools.accumulate(frames)]
        inner = {parent for parent, *_ in records}
        self.leaves = [i for i in self.links if i not in inner]
        self.last = len(frames) + max(self.delay(i) for i in self.leaves)

    def parent(self, i):
        return self.records[i - 1][0]

    def delay(self, i):
        return self.records[i - 1][1]

    def memory(self, i):
        return self.records[i - 1][2]

    def rate(self, i):
        return self.records[i - 1][3]

    def children(self, i):
        return [j for j in self.links if self.parent(j) == i]

    def above(self, i):
        """The nodes above i but the root."""
        return [] if self.parent(i) == 0 else [self.parent(i), *self.above(self.parent(i))]

    def called(self, i):
        return f"node {i}, a {'screen' if i in self.leaves else 'box'}"

    def played(self, i, k):
        """D(k) of a leaf: T(k - d)."""
        return self.sums[min(max(k - self.delay(i), 0), len(self.frames))]

    def demand(self, i, k):
        """D(k): of an inner node the greatest of the leaves below."""
        if i in self.leaves:
            return self.played(i, k) if self.only in (None, i) else -NEVER
        return max(self.demand(j, k) for j in self.children(i))

    def lower(self, i, k):
        up = self.parent(i)
        return self.demand(i, k) if up == 0 else max(self.demand(i, k), self.lower(up, k) - self.memory(up))

    def room(self, i, k):
        """What a node has first of the upper curve."""
        if i in self.leaves:
            return self.played(i, k) + self.memory(i) if self.only in (None, i) else NEVER
        return min(self.room(j, k) for j in self.children(i)) + self.memory(i)

    def upper(self, i, k):
        if self.only is not None:
            return min(self.room(j, k) for j in (i, *self.above(i)))
        return 0 if k == 0 else min(self.sums[-1], *(self.room(j, k) for j in (i, *self.above(i))))

    def curves(self, i):
        """The lower and the upper curve of a link, each a list over slots 0 to H."""
        slots = range(self.last + 1)
        return [self.lower(i, k) for k in slots], [self.upper(i, k) for k in slots]

    def crossing(self, i):
        """The first slot in which the lower curve of a link passes the upper one, and by how many bytes; or None."""
        low, high = self.curves(i)
        return next(((k, a - b) for k, (a, b) in enumerate(zip(low, high)) if a > b), None)

    def least_peak(self, i):
        low, high = self.curves(i)
        return max(0, *(-((high[j] - low[k]) // (k - j)) for k in range(self.last + 1) for j in range(k)))

    def held(self, rows):
        """The most that each node holds, by the rows of a plan."""
        found = []
        for i in self.links:
            below = [rows[j - 1] for j in self.children(i)]
            gone = [min(column) for column in zip(*below)] if below else [self.demand(i, k) for k in range(self.last + 1)]
            found.append(max(got - left for got, left in zip(rows[i - 1], gone)))
        return found

    def least_rate(self):
        """The least rate with which the longest delay serves, by search."""
        def serves(rate):
            return all(played <= rate * (m + LONGEST_DELAY) for m, played in enumerate(self.sums))

        return bisect.bisect_left(range(self.sums[-1] + 1), True, key=serves)


def constant_rate(frames, rate):
    """The least delay at a constant rate, by search, and the most that a screen then holds; None where there is no delay."""
    sums = [0, *itertools.accumulate(frames)]

    def serves(delay):
        return all(played <= rate * (m + delay) for m, played in enumerate(sums))

    delay = bisect.bisect_left(range(LONGEST_DELAY + 1), True, key=serves)
    if delay > LONGEST_DELAY:
        return None
    return delay, max(min(rate * k, sums[-1]) - played for k, played in enumerate([0] * delay + sums))


def read(data):
    """The records and frames of an accepted job's bytes."""
    widths, records = (1, 2, 8, 8), []
    for at in range(10, 10 + 19 * (data[5] - 1), 19):
        ends = [at, *itertools.accumulate(widths, initial=at)][1:]
        records.append(tuple(int.from_bytes(data[a:b], "big") for a, b in zip(ends, ends[1:])))
    return records, frames_of(data)


def starving_job(rng):
    """A small job with several leaves, differing delays and small memories, so that most have no plan."""
    links = rng.randint(3, 9)
    parents = [0] + [rng.randrange(max(0, i - 4), i) for i in range(2, links + 1)]
    frames = [rng.choice((0, rng.randrange(10), rng.randrange(60))) for _ in range(rng.randint(2, 20))]
    return [(parent, 0 if i in parents else rng.randint(0, 5), rng.choice((0, rng.randrange(60))), rng.randrange(5, 80))
            for i, parent in enumerate(parents, 1)], frames


def slow_job(rng):
    """A job with large frames and rates about the least that serves, so that most have no delay."""
    records, frames = starving_job(rng)
    frames = [rng.randrange(GREATEST_FRAME) for _ in frames]
    least = Rules(records, frames).least_rate()
    return [(*record[:3], rng.choice((0, least - 1, least - 1, least, least + 1, 2 * least))) for record in records], frames


def figure(word):
    """A number as people read it."""
    return int(word.replace(",", ""))
