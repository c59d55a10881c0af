"""The tools' own reading of docs/RULES.md: D, the two curves of each link leaf by leaf, what a box holds, which leaf starves, and the rate
that is too low. It shares nothing with the proved library, and is held against it."""
import functools
from dataclasses import dataclass

from jobs import LONGEST_DELAY


@dataclass(frozen=True)
class Term:
    """What a leaf brings to the curves of a link: T(k - delay) less a number to the lower one, and plus a number to the upper one."""
    leaf: int
    delay: int
    less: int
    more: int


@dataclass(frozen=True)
class Shortage:
    """A leaf that can't have got what it is due, as one that starts later has no room: in which slot first, which frame that is, what is
    due, what can have come, and how many bytes are missing at most, in any slot. Only the memories of the nodes given could help."""
    leaf: int
    full: int
    slot: int
    frame: int
    due: int
    come: int
    most: int
    nodes: tuple

    def missing(self):
        return self.due - self.come


class Curves:
    """D, the lower and the upper curve of an accepted job, each a list over slots 0 to H."""

    def __init__(self, job):
        self.job, self.last = job, job.last_slot()
        self.sums = [0]
        for size in job.frames:
            self.sums.append(self.sums[-1] + size)

    def total(self):
        return self.sums[-1]

    @functools.cache
    def played(self, delay):
        """T(k - delay) for each slot k."""
        return [0] * delay + self.sums + [self.total()] * (self.last - delay - len(self.job.frames))

    def demand(self, i):
        """D: the greatest of the leaves below is that of the earliest, as T never falls."""
        return self.played(min(self.job.node(leaf).delay for leaf in self.job.leaves() if i in self.job.path(leaf)))

    def shared(self, i, leaf):
        """The nodes above i, and the leaf with those above it, each up to the lowest that is above or at both; None where that is the
        root."""
        own, other = self.job.path(i), self.job.path(leaf)
        both = [node for node in own if node in other]
        if not both:
            return None
        return own[1:own.index(both[0]) + 1], other[:other.index(both[0]) + 1]

    @functools.cache
    def terms(self, i):
        """What each leaf brings to the link into node i; a leaf below another child of the root brings nothing."""
        found = []
        for leaf in self.job.leaves():
            paths = self.shared(i, leaf)
            if paths:
                less, more = (sum(self.job.node(node).memory for node in path) for path in paths)
                found.append(Term(leaf, self.job.node(leaf).delay, less, more))
        return found

    def term(self, i, leaf):
        """What a leaf brings to the link into node i, or None."""
        return next((term for term in self.terms(i) if term.leaf == leaf), None)

    def bound(self, i, leaf, name):
        """The slots in which a leaf's term is the lower or the upper curve of a link: above 0, below the end of the film."""
        term = self.term(i, leaf)
        if term is None:
            return []
        curve, own = (self.lower(i), self.lower_of(term)) if name == "lower" else (self.upper(i), self.upper_of(term))
        return [k for k, (value, brought) in enumerate(zip(curve, own)) if value == brought and 0 < value < self.total()]

    def lower_of(self, term):
        return [played - term.less for played in self.played(term.delay)]

    def upper_of(self, term):
        return [played + term.more for played in self.played(term.delay)]

    @functools.cache
    def lower(self, i):
        row = [0] * (self.last + 1)
        for term in tightest(self.terms(i), lambda term: (term.delay, term.less)):
            row = list(map(max, row, self.lower_of(term)))
        return row

    @functools.cache
    def upper(self, i):
        row = [self.total()] * (self.last + 1)
        for term in tightest(self.terms(i), lambda term: (-term.delay, term.more)):
            row = list(map(min, row, self.upper_of(term)))
        return [0] + row[1:]

    def crossing(self, i):
        """The first slot in which the lower curve of the link passes the upper one, or None."""
        return next((k for k, (low, high) in enumerate(zip(self.lower(i), self.upper(i))) if low > high), None)

    @functools.cache
    def window(self, slots):
        """The most that so many frames in a row have."""
        if slots >= len(self.job.frames):
            return self.total()
        return max(late - early for early, late in zip(self.sums, self.sums[slots:]))

    @functools.cache
    def late_frame(self, slots, more):
        """The first frame with which so many frames in a row have passed a sum of memories."""
        return next(m for m in range(1, len(self.sums)) if self.sums[m] - self.sums[max(m - slots, 0)] > more)

    @functools.cache
    def shortages(self):
        """Every leaf that starves for want of room at another: T(k - its delay) passes T(k - the other's) and all the memories from the
        lowest node above both down to the other. The one that starves first comes first, then the one that misses most."""
        found = []
        for leaf in self.job.leaves():
            own = self.job.node(leaf).delay
            for term in self.terms(leaf):
                if term.delay > own and self.window(term.delay - own) > term.more:
                    found.append(self.shortage(leaf, own, term))
        return sorted(found, key=lambda one: (one.slot, -one.missing(), one.leaf, one.full))

    def shortage(self, leaf, own, term):
        later = term.delay - own
        frame = self.late_frame(later, term.more)
        most, come = self.window(later) - term.more, self.sums[max(frame - later, 0)] + term.more
        nodes = tuple(self.shared(leaf, term.leaf)[1])
        return Shortage(leaf, term.leaf, frame + own, frame, self.sums[frame], come, most, nodes)

    def least_rate(self):
        """The least rate with which some delay serves: every frame must be there after the longest delay."""
        return max(-(-played // (m + LONGEST_DELAY)) for m, played in enumerate(self.sums))


def tightest(terms, key):
    """The terms that no other makes superfluous, as T never falls: a key is a delay or its negative, and a sum of memories; one with no
    less of both is never alone in giving the curve."""
    found = []
    for term in sorted(terms, key=key):
        if not found or key(term)[1] < key(found[-1])[1]:
            found.append(term)
    return found


def rises(row):
    """What a row carries in each of slots 1 to H."""
    return [late - early for early, late in zip(row, row[1:])]


def held_most(job, curves, rows):
    """The most that each node holds in any slot of a plan: what it has got and has not played, or not every child of it has got."""
    found = []
    for i in job.links():
        below = [rows[j - 1] for j in job.children(i)]
        sent = map(min, *below) if len(below) > 1 else below[0] if below else curves.demand(i)
        found.append(max(got - gone for got, gone in zip(rows[i - 1], sent)))
    return found
