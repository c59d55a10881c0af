"""Plans films for trees of relay boxes. Every answer is the proved library's.

    ./magpierack job write examples/film.txt film.job    a job from a text
    ./magpierack plan film.job                           what every link sends, and what every box needs
    ./magpierack why film.job                            where a refusal comes from, and what would help

A file named - is standard input or output. An output is written whole or not at all, and never over a file that is read. The first use
proves and builds the library, which takes some minutes; so does the first after a change of its sources.

The status is 0 where all that was asked for was answered, 1 where something was refused, 2 where nothing could be done."""
import argparse
import importlib
import signal
import sys

sys.dont_write_bytecode = True
import files  # noqa: E402
import library  # noqa: E402
import words  # noqa: E402
from files import Problem  # noqa: E402

# Each is a file of commands/, with a help, its options and what it does.
COMMANDS = ("job", "plan", "why", "table", "picture", "sheet", "radio", "leaf")


class Help(Exception):
    """What was asked for is a text that is known already."""


class Show(argparse.Action):
    def __init__(self, option_strings, dest, text=None, **other):
        super().__init__(option_strings, dest, nargs=0, default=argparse.SUPPRESS, **other)
        self.text = text

    def __call__(self, parser, *_):
        raise Help(self.text() if self.text else parser.format_help())


class Parser(argparse.ArgumentParser):
    """One whose errors are problems, and whose help is written as every output is."""

    def __init__(self, **other):
        super().__init__(formatter_class=argparse.RawDescriptionHelpFormatter, add_help=False, allow_abbrev=False, **other)
        self.add_argument("-h", "--help", action=Show, help="tells this")

    def add_job(self):
        self.add_argument("job", metavar="JOB", help="a job's file")

    def add_out(self):
        self.add_argument("--out", metavar="FILE", default="-", help="where to write, else standard output")

    def error(self, message):
        raise Problem(f"{words.shown(message, 200)}; '{self.prog} --help' tells more")


def version():
    return f"magpierack {library.version()}\n"


def parser():
    top = Parser(prog="./magpierack", description=__doc__)
    top.add_argument("--version", action=Show, text=version, help="the library's version")
    commands = top.add_subparsers(metavar="COMMAND", required=True, parser_class=Parser)
    for name in COMMANDS:
        module = importlib.import_module(f"commands.{name}")
        own = commands.add_parser(name, description=module.__doc__, help=module.__doc__.split("\n")[0].rstrip(".").lower())
        own.set_defaults(run=module.run)
        module.options(own)
    return top


def interrupt(*_):
    raise KeyboardInterrupt


def main(given):
    """Does what the words ask for, and gives the status."""
    for number in (signal.SIGTERM, signal.SIGHUP):
        signal.signal(number, interrupt)
    try:
        try:
            if given[:1] in ([], ["help"]):
                given = [*given[1:], "--help"]
            known = parser().parse_args(given)
            return known.run(known)
        except Help as text:
            files.write_file("-", str(text).encode())
            return 0
    except Problem as problem:
        words.say(problem)
        return problem.status
    except KeyboardInterrupt:
        words.say("interrupted")
    except MemoryError:
        words.say("there is not enough memory for this")
    except Exception as error:
        if sys.flags.dev_mode:
            raise
        words.say(f"a fault of ours, please report it with what you asked: {type(error).__name__}: {error}")
    return 2


if __name__ == "__main__":
    files.take_streams()
    sys.exit(main(sys.argv[1:]))
