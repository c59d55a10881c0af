"""Traces one screen: what it brings to each link's two curves, and in which slots it binds.

    ./magpierack leaf examples/film.job 5
    ./magpierack leaf examples/film.job 5 --picture leaf.svg

By the end of slot k a screen with delay d has played T(k - d), the sum of the first k - d frames. A link's lower curve is the greatest
of what the screens bring to it, its upper curve the least, and no more than the film. Each screen brings T(k - d), to the lower curve less
the memories above the link that it can wait in, to the upper curve with the memories on its own way. It binds in the slots in which that
is the curve, above 0 and below the film's end; others may bring the same. A screen under another child of the store brings nothing.

The curves are the tools' own reading of docs/RULES.md; the tests hold it against the library's plans. The status is 0, or 1 where the job
is refused, or 2 where nothing could be done."""
import library
import pictures
import words
from curves import Curves
from files import Problem, write_file, write_picture

MOST_STRETCHES = 4


def options(parser):
    parser.add_job()
    parser.add_argument("leaf", metavar="LEAF", help="the screen's node")
    parser.add_argument("--csv", action="store_true", help="every stretch of slots in which it binds, as CSV")
    parser.add_argument("--picture", metavar="FILE", help="draw them, too, as SVG")
    parser.add_out()


def run(given):
    _, job = library.accepted_job(given.job)
    leaf, curves = words.whole("leaf", given.leaf), Curves(job)
    if leaf not in job.leaves():
        raise Problem(f"node {leaf:,} is no screen; the job's screens are {', '.join(map(str, job.leaves()))}")
    bound = {(i, name): stretches(curves.bound(i, leaf, name)) for i in job.links() for name in ("lower", "upper")}
    if given.picture is not None:
        write_picture(given.picture, pictures.leaf(library.film(given.job), job, curves, leaf, bound))
    text = as_csv(job, curves, leaf, bound) if given.csv else as_table(job, curves, leaf, bound)
    write_file(given.out, text.encode())
    return 0


def stretches(slots):
    """Slots in increasing order as pairs of a first and a last."""
    found = []
    for k in slots:
        if found and found[-1][1] == k - 1:
            found[-1][1] = k
        else:
            found.append([k, k])
    return found


def brought(curves, i, leaf):
    """The terms of a leaf at a link in words, for both curves."""
    term = curves.term(i, leaf)
    if term is None:
        return "nothing", "nothing"
    played = f"T(k - {term.delay})" if term.delay else "T(k)"
    return (f"{played} - {words.count(term.less)}" if term.less else played), f"{played} + {words.count(term.more)}"


def slots_of(pairs):
    if not pairs:
        return "never"
    told = ", ".join(str(first) if first == last else f"{first}-{last}" for first, last in pairs[:MOST_STRETCHES])
    return told + (f" and {len(pairs) - MOST_STRETCHES} more" if len(pairs) > MOST_STRETCHES else "")


def as_table(job, curves, leaf, bound):
    out = f"Screen {leaf}, delay {job.node(leaf).delay}, memory {words.count(job.node(leaf).memory)}; slots 0 to {curves.last}\n"
    for at, name in enumerate(("lower", "upper")):
        rows = [(job.called(i), brought(curves, i, leaf)[at], words.count(sum(last - first + 1 for first, last in bound[i, name])),
                 slots_of(bound[i, name])) for i in job.links()]
        out += f"\n{words.columns(('link into', f'brings to the {name} curve', 'slots bound', 'which'), rows)}"
    return out


def as_csv(job, curves, leaf, bound):
    rows = []
    for (i, name), pairs in bound.items():
        term = curves.term(i, leaf)
        if term:
            rows += [(i, name, term.delay, -term.less if name == "lower" else term.more, first, last) for first, last in pairs]
    return words.comma_separated(("link", "curve", "delay", "more", "from", "to"), rows)
