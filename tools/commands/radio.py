"""Sizes one screen behind a link of constant rate: its wait and its memory, for each of some rates.

    ./magpierack radio examples/film.job 4000 8000 16000
    ./magpierack radio examples/film.job 6000-20000:500 --picture rates.svg

The link sends so many bytes in every slot until the film is through. Rates are in bytes a slot: numbers, or ranges FROM-TO:STEP; a range
FROM-TO has 33 rates at most. For each there are the least delay up to 4,096 slots and the least memory, or 13 where no delay serves. Of
the job the film alone is used. The wait never grows with the rate. A slow link needs memory for what is waited for, a fast one for what
is sent before its time; the rate that needs least memory, of those given, is named below the table and marked in the picture, where it
is not the slowest or the fastest of them.

The status is 0 where every rate has a delay, 1 where one has none, 2 where nothing could be done."""
import library
import pictures
import words
from files import Problem, write_file, write_picture

MOST_RATES = 10_000
STEPS = 32
HEADINGS = ("rate, bytes a slot", "number", "delay, slots", "memory, bytes")


def options(parser):
    parser.add_job()
    parser.add_argument("rates", metavar="RATE", nargs="+", help="a rate, or a range FROM-TO or FROM-TO:STEP")
    parser.add_argument("--csv", action="store_true", help="the table as CSV")
    parser.add_argument("--picture", metavar="FILE", help="draw the wait and the memory over the rate, too, as SVG")
    parser.add_out()


def run(given):
    rates = rates_of(given.rates)
    data, job = library.accepted_job(given.job)
    lines = library.constant_rates(data, rates)
    bend = bend_of(rates, lines)
    if given.picture is not None:
        write_picture(given.picture, pictures.rates(library.film(given.job), job, rates, lines, bend))
    write_file(given.out, (words.comma_separated(HEADINGS, table(rates, lines, str)) if given.csv
                           else words.columns(HEADINGS, table(rates, lines, words.count)) + told(rates, lines, bend)).encode())
    return 1 if any(number for number, *_ in lines) else 0


def rates_of(given):
    """The rates that the words name, each once, in increasing order."""
    found = set()
    for word in given:
        ends, colon, step = word.partition(":")
        first, dash, last = ends.partition("-")
        first = words.whole("rate", first)
        last = words.whole("rate", last) if dash else first
        if last < first or (colon and not dash):
            raise Problem(f"rates '{words.shown(word)}' are not FROM-TO or FROM-TO:STEP with FROM at most TO")
        if colon:
            step = words.whole("step", step)
            if step == 0 or (last - first) // step >= MOST_RATES:
                raise Problem(f"rates '{words.shown(word)}' are more than {MOST_RATES:,}; give a larger step")
            found.update(range(first, last + 1, step))
        else:
            found.update(first + (last - first) * k // STEPS for k in range(STEPS + 1))
        if len(found) > MOST_RATES:
            raise Problem(f"there are more than {MOST_RATES:,} rates; give fewer")
    return sorted(found)


def bend_of(rates, lines):
    """The place of the rate that needs least memory, of several the lowest; None where that is the first or the last that has a delay."""
    places = [at for at, (number, *_) in enumerate(lines) if number == 0]
    least = min(places, key=lambda at: lines[at][2], default=None)
    return None if least is None or least in (places[0], places[-1]) else least


def table(rates, lines, form):
    return [(form(rate), number, *(("", "") if number else map(form, rest))) for rate, (number, *rest) in zip(rates, lines)]


def told(rates, lines, bend):
    out = ""
    if any(number for number, *_ in lines):
        out += "\n" + words.lines(f"13: {library.sentence(13)}.")
    if bend is not None:
        _, delay, memory = lines[bend]
        least = f"Rate {words.count(rates[bend])} needs the least memory of these, {words.counted(memory, 'byte')}, with a wait of "
        least += f"{words.counted(delay, 'slot')}. Slower links don't shorten the wait, and faster ones don't save memory."
        out += "\n" + words.lines(least)
    return out
