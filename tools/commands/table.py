"""Tables many films at once: peaks before and after smoothing, the wait and the memory from rates.

    ./magpierack table examples
    ./magpierack table --markdown --out films.md examples/film.job examples/listing.job

Of a folder it takes the files in it and below it whose names end in .job. There is a line for each link of each film: the film, the node
that the link leads to, its peak before and after smoothing and their ratio, the wait w and the total of the memories from rates, and the
numbers that refuse the film, if any. The last line, on standard error, sums up. All cores are used.

The status is 0 where everything was answered, 1 where something was refused, 2 where a file can't be read or the table not be written."""
import concurrent.futures
import ctypes
import itertools
import multiprocessing
import os
import signal
from concurrent.futures.process import BrokenProcessPool

import files
import library
import words
from files import Problem

# Linux's number for the signal that a process gets when the one that made it ends.
DEATH_SIGNAL = 1
HEADINGS = ("film", "link", "peak before", "peak after", "ratio", "w", "total", "refusal")


def options(parser):
    parser.add_argument("names", metavar="JOB|DIR", nargs="+")
    parser.add_argument("--markdown", action="store_true", help="a Markdown table, else CSV")
    parser.add_out()


def run(given):
    names = list(itertools.chain.from_iterable(map(files_of, given.names)))
    files.read_names += names
    library.library()  # Built before there are several processes.
    found = ask_all(names)
    rows = [row for lines in found if not isinstance(lines, Problem) for row in lines]
    text = words.markdown(HEADINGS, rows) if given.markdown else words.comma_separated(HEADINGS, rows)
    files.write_file(given.out, text.encode("utf-8", "surrogateescape"))
    for problem in found:
        if isinstance(problem, Problem):
            words.say(problem)
    words.say(summary(found, rows))
    return max(2 if isinstance(lines, Problem) else 1 if any(row[-1] for row in lines) else 0 for lines in found)


def files_of(name):
    """The jobs that a word names."""
    if not os.path.isdir(name):
        return [name]
    found = [os.path.join(at, file) for at, _, inner in os.walk(name) for file in inner if file.endswith(".job")]
    if not found:
        raise Problem(f"{name}: no file in this folder or below it has a name that ends in .job")
    return sorted(found)


def ask_all(names):
    """What ask gives for each, or a problem, with as many processes as there are cores."""
    cores, found = len(os.sched_getaffinity(0)), []
    progress = words.Progress(len(names), "films")
    pool = concurrent.futures.ProcessPoolExecutor(cores, multiprocessing.get_context("fork"), serve)
    try:
        for lines in pool.map(ask, names, chunksize=max(1, min(16, len(names) // (4 * cores)))):
            found.append(lines)
            progress.show(len(found))
    except BrokenProcessPool:
        raise Problem("a process that asked the library ended early; there may not be enough memory") from None
    finally:
        pool.shutdown(wait=False, cancel_futures=True)
        progress.end()
    return found


def serve():
    """An interrupt is for the process that all others serve, and its end is theirs."""
    signal.signal(signal.SIGINT, signal.SIG_IGN)
    for number in (signal.SIGTERM, signal.SIGHUP):
        signal.signal(number, signal.SIG_DFL)
    ctypes.CDLL(None).prctl(DEATH_SIGNAL, signal.SIGKILL)


def ask(name):
    """The lines of one film, or what is wrong with its file."""
    try:
        data, number, job, _ = library.read_job(name)
    except Problem as problem:
        return problem
    film = files.spoken(name)
    if number:
        return [(film, "", "", "", "", "", "", str(number))]
    plan, sizing = library.plan(data), library.sizing(data)
    refusal = " ".join(str(answer.number) for answer in (plan, sizing) if answer.number)
    wait, before = ("", "") if sizing.number else (sizing.delay, sizing.total), max(job.frames)
    peaks = plan.peaks or [""] * len(job.nodes)
    return [(film, i, before, after, ratio(before, after), *wait, refusal) for i, after in zip(job.links(), peaks)]


def ratio(before, after):
    return f"{after / before:.3f}" if before and after != "" else ""


def summary(found, rows):
    """How many films, how many of them have a plan, and the mean of the ratios."""
    ratios = [after / before for _, _, before, after, ratio, *_ in rows if ratio]
    films = sum(not isinstance(lines, Problem) for lines in found)
    planned = sum(not isinstance(lines, Problem) and lines[0][3] != "" for lines in found)
    mean = f"; mean ratio of {words.counted(len(ratios), 'link')}: {sum(ratios) / len(ratios):.3f}" if ratios else ""
    return f"{words.counted(films, 'film')}, {words.count(planned)} with a plan{mean}"
