"""Explains a refusal of a job: where it comes from, and what would help.

    ./magpierack why examples/short.job

By 12, no plan: the screen that starves first, in which slot and by how many bytes, and the least memory that would do at each node that
has a part in it, alone. By 13, no delay: every link that is too slow, and the least rate that would do. By 1 to 10: the field, its place in
the job's bytes, its value and the values that it may have. By 15, which ./relay alone gives: that the library plans the job all the same.
Each figure is tried: with it the library answers, with one less it refuses.

The status is 0 where nothing is refused, 1 where something is, and 2 where there is no job or the answer can't be written."""
import dataclasses

import jobs
import library
import words
from building import typed
from curves import Curves
from files import Problem, spoken, write_file
from texts import is_text

MOST_BREACHES = 10
NONE = "none would"
ASKED = "Each figure was asked of the library: with it the question is answered, with one less it is refused."


def options(parser):
    parser.add_job()
    parser.add_out()


def run(given):
    data, number, job, broken = library.read_job(given.job)
    if number:
        parts = [why_bytes(given.job, data, broken)]
    else:
        curves, numbers = Curves(job), {"memories": library.plan(data).number, "rates": library.sizing(data).number}
        parts = [why_memories(job, curves) if numbers["memories"] else "From memories: answered.\n"]
        parts.append(why_rates(job, curves) if numbers["rates"] else "From rates: answered.\n")
        if jobs.too_large_for_program(job, len(data)):
            parts.append("./relay alone refuses it by 15, as it is too large for that program, and not for the library.\n")
        number = max(numbers.values())
    text = "\n".join([f"{words.escaped(spoken(given.job))}\n", *parts])
    write_file(given.out, text.encode("utf-8", "replace"))
    return 1 if number else 0


def expect(right, what):
    """Ends the command where the library, asked again, says something else."""
    if not right:
        raise Problem(f"the library does not confirm {what}: a fault of ours, please report it with this job")


def why_bytes(name, data, broken):
    """Refusals 1 to 10. With the first field as it may be, the library finds what the tools find in the rest."""
    mended = broken[0].mended(data)
    rest = jobs.from_bytes(mended)[1]
    agreed = library.refusal(mended) == (rest[0].number if rest else 0)
    expect(agreed and all((one.number, one.place) != (broken[0].number, broken[0].place) for one in rest), broken[0].sentence())
    out = f"Refused by {broken[0].number}: {library.sentence(broken[0].number)}.\n\n"
    rows = [(one.field.rstrip(","), one.number, place(one), one.found(), one.bound) for one in broken[:MOST_BREACHES]]
    out += words.columns(("field", "refusal", "at bytes", "value", "may be"), rows)
    if len(broken) > MOST_BREACHES:
        out += f"and {len(broken) - MOST_BREACHES:,} more like these\n"
    if broken[0].number <= 2 and is_text(data):
        out += f"\nIt looks like a text, not a job; {typed('job', 'write', 'TEXT' if name == '-' else name, 'JOB')} makes a job of one.\n"
    return out


def place(breach):
    """Where a field is in the bytes, counted from 0."""
    if breach.width is None:
        return "all"
    return f"{breach.place:,}" + (f" to {breach.place + breach.width - 1:,}" if breach.width > 1 else "")


def with_nodes(job, change):
    """The job's bytes with some nodes changed: change has fields by node."""
    nodes = tuple(dataclasses.replace(job.node(i), **change.get(i, {})) for i in job.links())
    return jobs.to_bytes(dataclasses.replace(job, nodes=nodes))


def is_planned(data):
    return library.plan(data).number == 0


def why_memories(job, curves):
    """Refusal 12."""
    shortages = curves.shortages()
    expect(shortages, "a screen that starves")
    first = shortages[0]
    confirm_shortage(job, first)
    later = words.counted(job.node(first.full).delay - job.node(first.leaf).delay, "slot")
    told = f"Screen {first.leaf} starves first, in slot {words.count(first.slot)}: by its end it is due {words.counted(first.due, 'byte')} "
    told += f"and can have got {words.count(first.come)} at most, {words.count(first.missing())} too few. Screen {first.full} starts "
    told += f"{later} later, and there is no room for what it has not yet played."
    chain = [i for i in job.path(first.leaf) if i not in job.path(first.full)] + job.path(first.full)
    rows = [(role(job, first, i), words.count(job.node(i).memory), least_memory(job, shortages, i)) for i in chain]
    table = words.columns(("more memory at one node alone", "has", "least that would do"), rows)
    same = with_nodes(job, {leaf: {"delay": job.node(first.full).delay} for leaf in job.leaves()})
    expect(is_planned(same), "that screens which start in the same slot are served")
    ends = "Screens that start in the same slot are always served, whatever the memories."
    if all(least == NONE for *_, least in rows):
        pairs = words.counted(len(shortages), "pair")
        ends = f"No node alone helps: in {pairs} of screens one starves for want of room at the other. {ends}"
    return f"From memories: refused by 12: {library.sentence(12)}.\n\n{words.lines(told)}\n{table}\n{words.lines(f'{ends} {ASKED}')}"


def role(job, first, i):
    if i == first.leaf:
        return f"screen {i}, which starves"
    if i == first.full:
        return f"screen {i}, which starts later"
    above = [leaf for leaf in (first.leaf, first.full) if i in job.path(leaf)]
    return f"box {i}, above {'both' if len(above) == 2 else f'screen {above[0]}'}"


def least_memory(job, shortages, i):
    """The least memory of a node with which there is a plan, all else as it is; it must have a part in every shortage."""
    if not all(i in one.nodes for one in shortages):
        expect(not is_planned(with_nodes(job, {i: {"memory": jobs.GREATEST_AMOUNT}})), f"that node {i} does not help alone")
        return NONE
    least = job.node(i).memory + max(one.most for one in shortages)
    expect(is_planned(with_nodes(job, {i: {"memory": least}})), f"memory {least} of node {i}")
    expect(not is_planned(with_nodes(job, {i: {"memory": least - 1}})), f"that memory {least - 1} of node {i} is too little")
    return words.count(least)


def confirm_shortage(job, first):
    """Leaf, slot and bytes, by jobs in which nothing but these two screens and the memories between them can matter: all other memories
    are the greatest, the other screens start with the later one, and the film ends with the frame that comes too late. Smaller by what is
    missing, that frame comes in time; smaller by one less it doesn't."""
    change = {i: {"memory": jobs.GREATEST_AMOUNT} for i in job.links() if i not in first.nodes}
    for i in job.leaves():
        if i not in (first.leaf, first.full):
            change[i]["delay"] = job.node(first.full).delay
    for smaller, planned in ((first.missing(), True), (first.missing() - 1, False)):
        frames = [*job.frames[:first.frame - 1], job.frames[first.frame - 1] - smaller] + [0] * (len(job.frames) - first.frame)
        data = with_nodes(dataclasses.replace(job, frames=tuple(frames)), change)
        expect(is_planned(data) == planned, f"that screen {first.leaf} misses {first.missing()} bytes in slot {first.slot}")


def why_rates(job, curves):
    """Refusal 13."""
    least = curves.least_rate()
    slow = [i for i in job.links() if job.node(i).rate < least]
    raised = {i: {"rate": least} for i in slow}
    expect(library.sizing(with_nodes(job, raised)).number == 0, f"rate {least}")
    for i in slow:
        expect(library.sizing(with_nodes(job, {**raised, i: {"rate": least - 1}})).number == 13, f"that rate {least - 1} is too low")
    rows = [(job.called(i), words.count(job.node(i).rate), words.count(least)) for i in slow]
    out = f"From rates: refused by 13: {library.sentence(13)}.\n\n"
    out += f"Every link must carry {words.counted(least, 'byte')} a slot at least. Too slow:\n\n"
    out += words.columns(("link into", "rate", "least that would do"), rows)
    if not any(node.rate for node in job.nodes):
        out += "\nAll rates are 0. If they were left out, './magpierack plan --from memories' asks the other question alone.\n"
    return f"{out}\n{words.lines(ASKED)}"
