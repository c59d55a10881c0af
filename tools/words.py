"""Text for people: numbers, names, messages and tables. Every command makes its text by these."""
import contextlib
import csv
import io
import os
import re
import sys
import textwrap

from files import ERRORS, Problem

# Who says a line on standard error.
speaker = "magpierack"
GREATEST = 2**64 - 1
MOST_LETTERS = 60
MOST_LINE = 500


def count(number):
    """A number with its thousands apart."""
    return f"{number:,}"


def counted(number, noun):
    """A number with its noun."""
    return f"{number:,} {noun}{'' if number == 1 else 's'}"


def share(before, after):
    return f"{100 * after / before:.0f}%" if before else "-"


def escaped(words):
    """Words on one line, whatever was in them."""
    return "".join(letter if letter.isprintable() else ascii(letter)[1:-1] for letter in words)


def shown(words, most=MOST_LETTERS):
    """What a user gave, as a message shows it: escaped, and cut in the middle where it is long."""
    words = escaped(words if len(words) <= 2 * most else words[:most] + "…" + words[-most:])
    return words if len(words) <= most else f"{words[:most // 2]}…{words[1 - most // 2:]}"


def whole(what, word):
    """A word that a user gave as a number of 64 bits."""
    if not re.fullmatch(r"[0-9]{1,99}", word) or int(word) > GREATEST:
        raise Problem(f"{what} '{shown(word)}' is not a whole number from 0 to {GREATEST:,}")
    return int(word)


def say(line):
    """A line on standard error, where that takes one."""
    with contextlib.suppress(OSError):
        os.write(ERRORS, f"{speaker}: {shown(str(line), MOST_LINE)}\n".encode("utf-8", "replace"))


def lines(text):
    """A paragraph in lines that are not too long to read."""
    return textwrap.fill(text, 100) + "\n"


def columns(headings, rows):
    """A table in columns, the first to the left and the others to the right."""
    rows = [[str(cell) for cell in row] for row in (headings, *rows)]
    widths = [max(len(row[at]) for row in rows) for at in range(len(headings))]
    lines = ("  ".join(cell.rjust(width) if at else cell.ljust(width) for at, (cell, width) in enumerate(zip(row, widths))) for row in rows)
    return "".join(f"{line.rstrip()}\n" for line in lines)


def markdown(headings, rows):
    """A table for people: numbers have their thousands apart."""
    def line(cells):
        texts = (count(cell) if isinstance(cell, int) else escaped(cell).replace("|", "\\|") for cell in cells)
        return f"| {' | '.join(texts)} |\n"

    return line(headings) + "|---|" + "---:|" * (len(headings) - 1) + "\n" + "".join(line(row) for row in rows)


def comma_separated(headings, rows):
    out = io.StringIO()
    csv.writer(out, lineterminator="\n").writerows([headings, *rows])
    return out.getvalue()


class Progress:
    """A bar on standard error, where that is a terminal."""

    def __init__(self, whole, what):
        self.whole, self.what = whole, what
        self.seen = sys.stderr is not None and sys.stderr.isatty() and whole > 1

    def show(self, done):
        if self.seen:
            full = 40 * done // self.whole
            self.write(f"\r[{'#' * full}{'.' * (40 - full)}] {done} of {self.whole} {self.what}")

    def end(self):
        if self.seen:
            self.write("\r\x1b[K")

    @staticmethod
    def write(text):
        with contextlib.suppress(OSError):
            os.write(ERRORS, text.encode())
