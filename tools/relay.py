"""Prints both answers to a job, as lines of numbers; docs/RULES.md tells them line by line.

    ./relay FILE    the job in a file
    ./relay         the job on standard input, which a file named - is too

Standard output gets what the proved program, target/bin/relay, prints, and nothing else. Standard error gets a line where something
failed, where a text stands in a job's place, and where a job is too large for the program alone (15), which names what plans it. The
first use proves and builds the program, which takes some minutes; so does the first after a change of the sources.

The status is 0 where both questions are answered, 1 where the job or a question is refused, and 2 where no answer is given: the job
could not be read, the program not built or run, or the answer not written."""
import os
import re
import subprocess
import sys

sys.dont_write_bytecode = True
from building import Built, Product, told, typed  # noqa: E402
from files import Problem, read_file, spoken, take_streams, write_file  # noqa: E402
from jobs import PROGRAM_BYTES  # noqa: E402
from texts import is_text  # noqa: E402

import words  # noqa: E402

words.speaker = "relay"
PROGRAM = Product("relay", "the program", ["crates", "crates.txt"], Built("relay", "run", "relay", "bin/relay"))


def ask(program, data):
    """What the program prints for these bytes."""
    with told("the program could not be run"):
        text = subprocess.run([program], check=True, input=data, stdout=subprocess.PIPE).stdout
    if not re.fullmatch(rb"([0-9]+( [0-9]+)*\n)+", text):
        raise Problem(f"the program, {program}, did not print lines of numbers")
    return text


def hint(name, data, number):
    """Says which command helps with a job that this number refuses, where one does."""
    job, text, made = "FILE", "TEXT", "JOB"
    if name != "-" and os.path.isfile(name):
        job, text, made = name, name, f"{name if name.endswith('.job') else os.path.splitext(name)[0]}.job"
    if number in (1, 2, 15) and is_text(data):
        words.say(f"{spoken(name)} looks like a text, not a job; {typed('job', 'write', text, made)} makes a job of one")
        job = made
    if number == 15:
        words.say(f"the job is too large for this program alone; {typed('plan', job)} plans it")


def main(given):
    """Prints both answers to the job that is named, and gives the status."""
    name = given[0] if given else "-"
    try:
        if given in (["-h"], ["--help"]):
            write_file("-", f"{__doc__}\n".encode())
            return 0
        if len(given) > 1 or (name.startswith("-") and name != "-"):
            raise Problem("usage: ./relay [FILE]    (./relay --help tells more)")
        data = read_file(name, PROGRAM_BYTES)
        text = ask(PROGRAM.make(words.say), data)
        write_file("-", text)
        first, last = (int(line.split()[0]) for line in (text.splitlines()[0], text.splitlines()[-1]))
        hint(name, data, first)
        return 0 if first == last == 0 else 1
    except Problem as problem:
        words.say(problem)
    except KeyboardInterrupt:
        words.say("interrupted")
    return 2


if __name__ == "__main__":
    take_streams()
    sys.exit(main(sys.argv[1:]))
