"""Makes the page that is printed and filed with a unit.

    ./magpierack sheet examples/film.job --unit 'Training ship 7' --out sheet.html

It is one HTML file that needs nothing else and prints on A4 as it looks: the unit, the date, the version of the library, the job's SHA-256,
the tree with its memories, rates and delays, both answers, the peaks before and after smoothing, the picture of the tree and that of one
link: the one with the greatest peak, or, without a plan, the one to the screen that starves first. What is refused is explained.

The status is 0 where both questions were answered, 1 where something was refused, 2 where nothing was made."""
import contextlib
import datetime
import hashlib
import re

import library
import pages
import words
from commands import picture, why
from curves import Curves, held_most
from files import Problem, spoken, write_picture


def options(parser):
    parser.add_job()
    parser.add_argument("--unit", metavar="NAME", required=True, help="the unit that the sheet is filed with")
    parser.add_argument("--date", metavar="YYYY-MM-DD", help="the sheet's date, else today")
    parser.add_out()


def run(given):
    date = date_of(given.date)
    if not given.unit.strip():
        raise Problem("--unit is empty; name the unit that the sheet is filed with")
    data, job = library.accepted_job(given.job)
    curves, plan, sizing = Curves(job), library.plan(data), library.sizing(data)
    held = held_most(job, curves, plan.rows) if plan.rows else None
    parts = [facts(given, date, data, job, curves), *answers(job, curves, plan, sizing), *nodes(job, plan, sizing, held)]
    parts += figures(given, data, job, curves, plan)
    write_picture(given.out, pages.page(f"{given.unit}: {library.film(given.job)}", parts))
    return library.tell_refused(given.job, memories=plan, rates=sizing)


def date_of(word):
    if word is None:
        return datetime.date.today()
    found = re.fullmatch(r"(\d{4})-(\d\d)-(\d\d)", word, re.A)
    with contextlib.suppress(ValueError):
        if found:
            return datetime.date(*map(int, found.groups()))
    raise Problem(f"--date '{words.shown(word)}' is not a day as 2026-11-17 is")


def facts(given, date, data, job, curves):
    film = f"{words.counted(len(job.frames), 'frame')}, {words.counted(curves.total(), 'byte')}"
    return pages.facts({
        "Unit": given.unit, "Date": date.isoformat(), "Library": f"relay {library.version()}, proved", "Job": spoken(given.job),
        "SHA-256 of the job": hashlib.sha256(data).hexdigest(), "Film": film, "Tree": f"{len(job.nodes) + 1} nodes with the store"})


def answers(job, curves, plan, sizing):
    """Both answers in a sentence each, or why there is none."""
    slots = f"From memories: a plan of slots 0 to {words.count(plan.last_slot)}; no screen starves, no box overfills, no peak can be lower."
    total = words.counted(sizing.total, "byte")
    wait = f"From rates: the screens wait {words.counted(sizing.delay, 'slot')}, and the memories needed total {total}."
    out = [pages.heading("Answers")]
    for name, answer, text, reasons in (("memories", plan, slots, why.why_memories), ("rates", sizing, wait, why.why_rates)):
        if answer.number:
            refused, _, rest = reasons(job, curves).partition("\n\n")
            out += [pages.paragraph(refused, f"from-{name}", "refused"), pages.listing(rest)]
        else:
            out.append(pages.paragraph(text, f"from-{name}"))
    return out


def nodes(job, plan, sizing, held):
    """A line for each node and its link."""
    headings = ("node", "from", "delay", "memory", "rate", "peak before", "peak after", "ratio", "held at most", "memory from rates")
    rows = []
    for i in job.links():
        node, before, leaf = job.node(i), max(job.frames), i in job.leaves()
        after = (words.count(plan.peaks[i - 1]), words.share(before, plan.peaks[i - 1]), words.count(held[i - 1])) if held else ("-",) * 3
        need = words.count(sizing.memories[i - 1]) if sizing.memories else "-"
        rows.append((f"{i}, {'screen' if leaf else 'box'}", node.parent or "store", node.delay if leaf else "-", words.count(node.memory),
                     words.count(node.rate), words.count(before), *after, need))
    units = "Delays in slots, memories in bytes, rates and peaks in bytes a slot."
    return [pages.heading("The tree"), pages.table(headings, rows, "nodes"), pages.paragraph(units, "units")]


def figures(given, data, job, curves, plan):
    """The pictures of the tree and of one link."""
    film = library.film(given.job)
    i = plan.peaks.index(max(plan.peaks)) + 1 if plan.peaks else curves.shortages()[0].leaf
    for drawn in (picture.tree(film, data, job, curves, plan), picture.link(film, job, curves, plan, i, None)):
        yield pages.figure(drawn)
