"""Draws a job: its whole tree, or one link.

    ./magpierack picture examples/film.job --out tree.svg
    ./magpierack picture examples/film.job 2 --out link.svg
    ./magpierack picture examples/film.job 2 --slots 100-200 --out part.svg

The tree: each link is as wide as its peak, the most bytes in one slot, before smoothing and after it; each box shows its memory and how
full it gets. Where there is no plan, the screen that starves and the memories that are too small are marked, and links that are too slow.

A link, above: the lower curve, the upper curve and the planned row, in bytes carried by the end of each slot, or in their distance above
the lower curve where they could not be told apart otherwise; where there is no plan, the first slot in which the two curves cross. Below:
the bytes of each slot before smoothing, which are what the earliest screen below plays, and after it, with both peaks, those of all
slots. In a long film a point stands for several slots.

The picture is SVG, which every browser shows. The plan is the library's; the curves are computed here once more, and a planned row that
were not between them would be an error. The status is 0, or 1 where there is no plan or the job is refused, or 2 where nothing was made."""
import library
import pictures
import words
from curves import Curves, held_most
from files import Problem, write_picture


def options(parser):
    parser.add_job()
    parser.add_argument("link", metavar="LINK", nargs="?", help="the node that the link leads to; without it, the whole tree")
    parser.add_argument("--slots", metavar="FROM-TO", help="of a link: these slots alone")
    parser.add_out()


def run(given):
    data, job = library.accepted_job(given.job)
    curves, plan = Curves(job), library.plan(data)
    if given.link is None:
        if given.slots is not None:
            raise Problem("--slots are of a link; name the node that it leads to")
        drawn = tree(library.film(given.job), data, job, curves, plan)
    else:
        drawn = link(library.film(given.job), job, curves, plan, link_of(job, given.link), slots_of(curves, given.slots))
    write_picture(given.out, drawn)
    return library.tell_refused(given.job, memories=plan)


def link_of(job, word):
    i = words.whole("link", word)
    if i not in job.links():
        raise Problem(f"there is no link into node {i:,}; the job has links into nodes 1 to {len(job.nodes)}")
    return i


def slots_of(curves, word):
    if word is None:
        return None
    first, _, last = word.partition("-")
    first, last = words.whole("slot", first), words.whole("slot", last)
    if not first < last <= curves.last:
        raise Problem(f"there are no slots {first:,}-{last:,}; the plan has slots 0 to {curves.last:,}")
    return first, last


def link(film, job, curves, plan, i, slots):
    row = plan.rows[i - 1].tolist() if plan.rows else None
    if row and not all(low <= sent <= high for low, sent, high in zip(curves.lower(i), row, curves.upper(i), strict=True)):
        raise Problem(f"the planned row into node {i} is not between its curves: a fault of ours, please report it with this job")
    return pictures.link(film, job, curves, i, row, slots)


def tree(film, data, job, curves, plan):
    held = held_most(job, curves, plan.rows) if plan.rows else None
    starving = curves.shortages()[0] if plan.number else None
    least = curves.least_rate()
    slow = {i: least for i in job.links() if job.node(i).rate < least} if library.sizing(data).number else {}
    return pictures.tree(film, job, curves, plan, held, starving, slow)
