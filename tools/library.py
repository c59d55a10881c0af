"""The proved library, called here and nowhere else. It is built where it must be, so that no answer comes from an old one."""
import functools
import os
import resource
from dataclasses import dataclass

import binding
import jobs
import words
from building import Built, Product, near, typed
from files import Problem, Refused, read_file, spoken

# tools/install makes the shared library from the static one, under a folder of target/.
SHARED = Product(
    "magpierack", "the library", ["crates", "crates.txt", "include", "tools/install", "tools/library.sh"],
    Built("relay_c", "lib", "librelay_c.a", "staticlib/librelay_c.a"),
    "magpierack/lib/librelay.so", ["tools/install", "target/magpierack"])


STACK = 4 << 20


@dataclass(frozen=True)
class Plan:
    """The answer to the memory question; without one all but the number are 0 or empty. rows[i - 1] is that of the link into node i."""
    number: int
    last_slot: int
    total: int
    peaks: list
    rows: list


@dataclass(frozen=True)
class Sizing:
    """The answer to the rate question; without one all but the number are 0 or empty."""
    number: int
    delay: int
    total: int
    memories: list


def take_stack():
    """Makes sure of a stack that is large enough for every call, relay.h's RELAY_STACK_SIZE and as much for Python."""
    soft, hard = resource.getrlimit(resource.RLIMIT_STACK)
    if soft == resource.RLIM_INFINITY or soft >= STACK:
        return
    try:
        resource.setrlimit(resource.RLIMIT_STACK, (STACK, hard))
    except (OSError, ValueError):
        raise Problem(f"the stack may have {soft:,} bytes and {STACK:,} are needed; 'ulimit -s {STACK // 1024}' allows them") from None


@functools.cache
def library():
    take_stack()
    path = SHARED.make(words.say)
    try:
        return binding.Library(path)
    except (OSError, AttributeError) as error:
        raise Problem(f"{near(path)}: can't be loaded: {error}; remove it, and it is built anew") from None


def version():
    parts = library().version()
    return f"{parts // 1_000_000}.{parts // 1_000 % 1_000}.{parts % 1_000}"


def sentence(number):
    """A number in words."""
    return library().text(number)


def refusal(data):
    return library().refusal(data)


def plan(data):
    """The memory question of an accepted job."""
    _, nodes, _, last_slot, length = library().job_sizes(data)
    (number, last, total), rows, peaks = library().memory_question(data, length, nodes - 1)
    if number:
        return Plan(number, 0, 0, [], [])
    view, slots = memoryview(rows), last_slot + 1
    return Plan(number, last, total, peaks, [view[at:at + slots] for at in range(0, length, slots)])


def sizing(data):
    """The rate question of an accepted job."""
    (number, delay, total), memories = library().rate_question(data, library().job_sizes(data)[1] - 1)
    return Sizing(number, delay, total, [] if number else memories)


def constant_rates(data, rates):
    """A line (number, delay, memory) for each rate, any number of them."""
    most, lines = library().limits()["most_rates"], []
    for at in range(0, len(rates), most):
        number, numbers = library().constant_rates(data, rates[at:at + most])
        if number:
            raise Problem(f"the list of rates is refused by {number}: {sentence(number)}")
        lines += zip(*[iter(numbers)] * 3)
    return lines


def put_back(data, delay, memories):
    """The job with an answer of the rate question written into it."""
    number, back = library().put_back(data, delay, memories)
    if number:
        raise Refused(f"the answer can't be put back: refused by {number}: {sentence(number)}")
    return back


def read_job(name):
    """A job's bytes, and its number where the library refuses it, which the tools' own reading must say too."""
    data = read_file(name, jobs.MOST_BYTES)
    number = refusal(data)
    job, broken = jobs.from_bytes(data)
    if number != (broken[0].number if broken else 0):
        raise Problem(f"{spoken(name)}: the library says {number} and the tools do not: a fault of ours, please report it with this job")
    return data, number, job, broken


def why(name):
    """How an explanation is asked for."""
    return typed("why", "FILE" if name == "-" else name)


def accepted(name, number, broken):
    """Ends the command where a job is refused."""
    if number:
        raise Refused(f"{spoken(name)}: refused by {number}: {broken[0].sentence()}; {why(name)} tells more")


def accepted_job(name):
    """A job's bytes, and the job."""
    data, number, job, broken = read_job(name)
    accepted(name, number, broken)
    return data, job


def refused(name, question, number):
    """A sentence on a question that was refused."""
    return f"{spoken(name)}: {question}: refused by {number}: {sentence(number)}; {why(name)} tells more"


def tell_refused(name, **answers):
    """Says of each question's answer, if there is one, whether it was refused; gives the status."""
    numbers = {f"from {question}": answer.number for question, answer in answers.items() if answer and answer.number}
    for question, number in numbers.items():
        words.say(refused(name, question, number))
    return 1 if numbers else 0


def film(name):
    """A job's name for people: that of its file."""
    return "standard input" if name == "-" else os.path.splitext(os.path.basename(name))[0]
