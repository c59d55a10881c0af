"""Answers both questions of a job of any size.

    ./magpierack plan examples/film.job
    ./magpierack plan --csv --out rows.csv examples/film.job

From memories: what every link sends in every slot, and its peak, the most in one slot. From rates: how long the screens wait, and the
memory that each node needs. Without a format it prints a table for people; the rows are in the others:

    --lines    the lines that ./relay prints
    --csv      the plan alone, a line for each slot: the bytes that each link has carried by the end of it
    --json     everything

The status is 0 where what was asked for was answered, 1 where something of it was refused, which './magpierack why' explains, and 2
where there is no job or the answer can't be written."""
import json

import library
import words
from curves import Curves, held_most
from files import Problem, spoken, write_file


def options(parser):
    parser.add_job()
    parser.add_argument("--from", dest="source", choices=("memories", "rates"), help="ask this question alone")
    form = parser.add_mutually_exclusive_group()
    for name in ("lines", "csv", "json"):
        form.add_argument(f"--{name}", dest="form", action="store_const", const=FORMS[name])
    parser.add_out()
    parser.set_defaults(form=as_table)


def run(given):
    if given.form is as_csv and given.source == "rates":
        raise Problem("--csv has the plan, which is from memories; for the answer from rates take --lines or --json")
    data, number, job, broken = library.read_job(given.job)
    if number:
        if given.form is as_lines:
            write_file(given.out, f"{number}\n".encode())
        library.accepted(given.job, number, broken)
    asked = ("memories",) if given.form is as_csv else (given.source,) if given.source else ("memories", "rates")
    plan = library.plan(data) if "memories" in asked else None
    sizing = library.sizing(data) if "rates" in asked else None
    write_file(given.out, given.form(given.job, job, plan, sizing).encode("utf-8", "replace"))
    return library.tell_refused(given.job, memories=plan, rates=sizing)


def as_lines(name, job, plan, sizing):
    lines = []
    if plan:
        lines.append([plan.number] if plan.number else [0, plan.last_slot, plan.total])
        lines += ([i, peak, *row] for i, (peak, row) in enumerate(zip(plan.peaks, plan.rows), 1))
    if sizing:
        lines.append([sizing.number] if sizing.number else [0, sizing.delay, sizing.total, *sizing.memories])
    return "".join(" ".join(map(str, line)) + "\n" for line in lines)


def as_csv(name, job, plan, sizing):
    """The rows as columns; nothing where there is no plan."""
    if plan.number:
        return ""
    return words.comma_separated(["slot"] + [f"node{i}" for i in job.links()], zip(range(plan.last_slot + 1), *plan.rows))


def as_json(name, job, plan, sizing):
    found = {"job": spoken(name), "version": library.version(), "nodes": len(job.nodes) + 1, "frames": len(job.frames)}
    if plan:
        links = [{"node": i, "peak": peak, "row": row.tolist()} for i, (peak, row) in enumerate(zip(plan.peaks, plan.rows), 1)]
        known = {} if plan.number else {"last_slot": plan.last_slot, "total": plan.total, "links": links}
        found["from_memories"] = {"number": plan.number, "text": library.sentence(plan.number), **known}
    if sizing:
        known = {} if sizing.number else {"delay": sizing.delay, "total": sizing.total, "memories": sizing.memories}
        found["from_rates"] = {"number": sizing.number, "text": library.sentence(sizing.number), **known}
    return json.dumps(found) + "\n"


def as_table(name, job, plan, sizing):
    curves = Curves(job)
    film = f"{words.counted(len(job.frames), 'frame')}, {words.counted(curves.total(), 'byte')}"
    out = f"{words.escaped(spoken(name))}: {len(job.nodes) + 1} nodes with the store; a film of {film}\n"
    if plan:
        out += f"\n{from_memories(job, curves, plan)}"
    if sizing:
        out += f"\n{from_rates(job, curves, sizing)}"
    return out


def from_memories(job, curves, plan):
    if plan.number:
        return f"From memories: refused by {plan.number}: {library.sentence(plan.number)}\n"
    rows = []
    for i, after, held in zip(job.links(), plan.peaks, held_most(job, curves, plan.rows)):
        node, before = job.node(i), max(job.frames)
        delay = node.delay if i in job.leaves() else "-"
        cells = (before, after)
        rows.append((job.called(i), node.parent or "store", delay, words.count(node.memory), words.count(held),
                     *map(words.count, cells), words.share(*cells)))
    headings = ("link into", "from", "delay", "memory", "held at most", "peak before", "peak after", "after / before")
    return f"From memories: the plan has slots 0 to {words.count(plan.last_slot)}.\n\n{words.columns(headings, rows)}"


def from_rates(job, curves, sizing):
    if sizing.number:
        return f"From rates: refused by {sizing.number}: {library.sentence(sizing.number)}\n"
    rows = [(job.called(i), words.count(job.node(i).rate), words.count(memory)) for i, memory in zip(job.links(), sizing.memories)]
    wait = f"the screens wait {words.counted(sizing.delay, 'slot')}, and the memories total {words.counted(sizing.total, 'byte')}"
    return f"From rates: {wait}.\n\n{words.columns(('link into', 'rate', 'memory needed'), rows)}"


FORMS = {"lines": as_lines, "csv": as_csv, "json": as_json}
