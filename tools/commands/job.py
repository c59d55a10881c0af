"""Writes a job from a text, reads one back, checks some, or puts an answer back into one.

    ./magpierack job write examples/film.txt film.job
    ./magpierack job check film.job
    ./magpierack job put-back film.job sized.job

Each has a help of its own, as './magpierack job write --help'. The status is 0 where the job is sound, 1 where it is refused, 2 where
nothing could be done."""
import jobs
import library
import words
from files import Problem, Refused, read_file, spoken, write_file
from texts import MOST_WARNINGS, Text, text_of

WRITE = """Writes a job from a text.

    ./magpierack job write examples/film.txt film.job

The text has a line for each node but the root, in any order, and then the film:

    # Anything after a # is a comment. Delays are in slots, memories in bytes, rates in bytes a slot.
    node 1  parent 0  memory 4  rate 5
    node 2  parent 1  rate 10
    node 3  parent 1  delay 1  memory 6  rate 4
    frames
    4
    10
    1

What a question doesn't use may be left out and is 0: rates, where only memories are planned with; delays and memories, where only rates
are. The film is the sizes of its frames in bytes, one to a line. It follows the line 'frames' to the end of the text, or it is a file of
its own that a line 'film FILE' names, from the text's folder; 'film -' takes the sizes from standard input. This prints those of a film:

    ffprobe -v error -select_streams v:0 -show_entries frame=pkt_size -of csv=p=0 film.mp4 > film.sizes

What ffprobe prints by -of csv, -of compact or in sections ([FRAME] .. pkt_size=4 .. [/FRAME]) is read too. Where a version knows no
pkt_size of frames, packet=size gives the sizes in the order in which the film is stored, and not that in which it is played.

What can't be put into its field is an error, which names the line, and nothing is written. Numbers that fit and break a rule are written
all the same, with a warning that names the line and the refusal."""

READ = """Writes a job as the text that 'job write' reads.

    ./magpierack job read examples/listing.job -"""

CHECK = """Says of each job whether it is sound: 0, or the number that refuses it and the field, which 'why' tells more of.

    ./magpierack job check examples/film.job examples/listing.job"""

PUT_BACK = """Writes a job with an answer of the rate question in it: the delay for every screen, and each node's memory.

    ./magpierack job put-back examples/film.job sized.job
    ./magpierack job put-back examples/listing.job sized.job --delay 2 --memories 0,6,6

Without --delay and --memories the answer is the library's to this job. The plan of the new job keeps within the rates."""


def options(parser):
    actions = parser.add_subparsers(metavar="ACTION", required=True)
    for name, text, function, names in (
        ("write", WRITE, write, ("TEXT", "JOB")),
        ("read", READ, read, ("JOB", "TEXT")),
        ("check", CHECK, check, ()),
        ("put-back", PUT_BACK, put_back, ("JOB", "OUT")),
    ):
        own = actions.add_parser(name, description=text, help=text.split("\n")[0].rstrip(".").lower())
        own.set_defaults(action=function)
        for place, word in zip(("source", "out"), names):
            own.add_argument(place, metavar=word)
        if name == "check":
            own.add_argument("names", metavar="JOB", nargs="+")
        if name == "put-back":
            own.add_argument("--delay", metavar="SLOTS", help="with --memories: the delay of an answer from elsewhere")
            own.add_argument("--memories", metavar="B,B,..", help="its memories, of nodes 1, 2 and so on")


def run(given):
    return given.action(given)


def warn(broken, places, name):
    """A line for each rule broken, then the number that the job gets."""
    for breach in broken[:MOST_WARNINGS]:
        words.say(f"{places.get(breach.where, name)}: warning: refusal {breach.number}: {breach.sentence()}")
    if len(broken) > MOST_WARNINGS:
        words.say(f"{name}: warning: {len(broken) - MOST_WARNINGS} more like these")
    if broken:
        words.say(f"{name}: the job is refused by {broken[0].number}")
    return 1 if broken else 0


def write(given):
    text = Text(given.source)
    job = text.job()
    write_file(given.out, jobs.to_bytes(job))
    return warn(jobs.breaches(job), text.places, spoken(given.source))


def read(given):
    name = spoken(given.source)
    job, broken = jobs.from_bytes(read_file(given.source, jobs.MOST_BYTES))
    if job is None:
        raise Problem(f"{name}: refused by {broken[0].number} and can't be read: {broken[0].sentence()}")
    write_file(given.out, text_of(job, broken).encode())
    return warn(broken, {}, name)


def check(given):
    """A line for each job; with several, each begins with the file's name."""
    status, out = 0, []
    for name in given.names:
        try:
            data, number, job, broken = library.read_job(name)
        except Problem as problem:
            words.say(problem)
            status = 2
            continue
        if number:
            sentence = f"refused: {broken[0].sentence()}"
        else:
            sizes = f"{len(job.nodes) + 1} nodes, {words.counted(len(job.frames), 'frame')}, {words.counted(sum(job.frames), 'byte')}"
            large = "; ./relay alone refuses it by 15, as too large for it" if jobs.too_large_for_program(job, len(data)) else ""
            sentence = f"accepted: {sizes}{large}"
        out.append(f"{words.escaped(spoken(name))}: " * (len(given.names) > 1) + f"{number} {sentence}\n")
        status = max(status, min(number, 1))
    write_file("-", "".join(out).encode("utf-8", "replace"))
    return status


def put_back(given):
    if (given.delay is None) != (given.memories is None):
        raise Problem("--delay and --memories are given together, or neither")
    data, _ = library.accepted_job(given.source)
    if given.delay is None:
        sizing = library.sizing(data)
        if sizing.number:
            raise Refused(library.refused(given.source, "from rates", sizing.number))
        delay, memories = sizing.delay, sizing.memories
    else:
        delay, memories = words.whole("--delay", given.delay), [words.whole("--memories", word) for word in given.memories.split(",")]
    write_file(given.out, library.put_back(data, delay, memories))
    return 0
