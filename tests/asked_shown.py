"""Tests what ./magpierack shows by table, picture and sheet, and its help, against the program and against the rules read once more."""
import datetime
import hashlib
import itertools
import multiprocessing
import os
import pty
import random
import re
import shlex
import shutil
import signal
import subprocess
import xml.etree.ElementTree as ET

from asked import is_share, parsed_csv
from cases import FILM, GREATEST_AMOUNT, GREATEST_FRAME, LISTING, MAGPIERACK, SHORT, call, coded, random_job
from own import Answers, Rules, figure, read, slow_job, starving_job
from tally import ROOT, settle

SVG, XHTML = "{http://www.w3.org/2000/svg}", "{http://www.w3.org/1999/xhtml}"
NAMES = ["a, b", 'the "film"', "a|b", "two\nlines", "gr\u00fc\u00df", "\udcff\udcfe", "\x1b[1m", "a\\b", "=1+1", "-x", " "]


def many_jobs(folder):
    """Thirty jobs in a folder and below it: names with their bytes."""
    rng, found = random.Random(131), {}
    kinds = [random_job, starving_job, slow_job, random_job]
    (folder / "in/deep").mkdir(parents=True)
    for k in range(30):
        data = coded(*kinds[k % 4](rng))
        if k % 9 == 8:
            data = rng.choice((data[:7], b"RLX" + data[3:], data + b"x", data[:5] + b"\0" + data[6:]))
        name = f"{NAMES[k] if k < len(NAMES) else k}.job"
        path = os.path.join(folder, ("", "in", "in/deep")[k % 3], name)
        found[path] = data
    found[str(folder / "both.job")] = coded([(0, 0, 4, 5), (1, 0, 0, 0), (1, 1, 5, 4)], [4, 10, 1])
    for path, data in found.items():
        with open(path, "wb") as file:
            file.write(data)
    (folder / "in/none.txt").write_text("no job")
    return found


def table_rows(name, data):
    """The lines of one film, by the program."""
    due = Answers(data)
    memory, rate = due.numbers()
    if 1 <= memory <= 10:
        return [[name, "", "", "", "", "", "", str(memory)]]
    records, frames = read(data)
    before, wait = max(frames), ["", ""] if rate else [str(due.rate[1]), str(due.rate[2])]
    refusal = " ".join(str(number) for number in (memory, rate) if number)
    peaks = due.peaks or [None] * len(records)
    shown = [["", ""] if peak is None else [str(peak), f"{peak / before:.3f}" if before else ""] for peak in peaks]
    return [[name, str(i), str(before), *cells, *wait, refusal] for i, cells in enumerate(shown, 1)]


def summed(films):
    """The last line, from the lines of each film."""
    rows = [row for lines in films for row in lines if row[4]]
    ratios = [int(row[3]) / int(row[2]) for row in rows]
    planned = sum(lines[0][3] != "" for lines in films)
    return f"{len(films)} films, {planned} with a plan; mean ratio of {len(ratios)} links: {sum(ratios) / len(ratios):.3f}\n"


HEADINGS = ["film", "link", "peak before", "peak after", "ratio", "w", "total", "refusal"]


def on_cores(cores, more=lambda: None):
    """Makes the command see so many cores, and ends it after a minute."""
    def before():
        signal.alarm(60)
        os.sched_getaffinity = lambda _: set(range(cores))
        more()

    return before


def test_table(folder):
    """Every line by single answers, as CSV and as Markdown, with one process and with several."""
    jobs = many_jobs(folder)
    films = [table_rows(path, jobs[path]) for path in sorted(jobs)]
    due = [HEADINGS, *itertools.chain(*films)]
    seen = {row[-1] for row in due}
    settle("table, refusals that come up", {"", "12", "13", "12 13"} <= seen and any(row[1] == "" for row in due), seen)
    for cores in (1, 2, 3):
        status, out, said = call("table", folder, before=on_cores(cores))
        settle(f"table on {cores} cores", (status, parsed_csv(out)) == (1, due), (status, out[:300]))
        settle(f"its last line on {cores} cores", said == summed(films), (said, summed(films)))
    status, out, said = call("table", "--markdown", folder)
    lines = out.decode().splitlines()
    found = [[cell.replace("\\|", "|") for cell in re.split(r"(?<!\\) \| |^\| | \|$", line)[1:-1]] for line in lines]
    plain = [["".join(letter if letter.isprintable() else ascii(letter)[1:-1] for letter in row[0]),
              *(f"{int(cell):,}" if cell.isdigit() else cell for cell in row[1:])] for row in due]
    settle("table as Markdown", status == 1 and [found[0], *found[2:]] == plain and set(lines[1]) == set("|-:"), out[:300])
    settle("table as Markdown, lines of one length", {line.replace("\\|", "").count("|") for line in lines} == {9}, lines[:3])


def test_table_words(folder):
    """Files that can't be read, a job named twice, and folders without one."""
    status, out, said = call("table", LISTING, folder / "none.job", LISTING)
    films = [table_rows(str(LISTING), LISTING.read_bytes())] * 2
    settle("table with no file among them", (status, parsed_csv(out)[1:]) == (2, [*films[0], *films[0]]), (status, out))
    settle("what it says", said == f"{folder}/none.job: can't be read: No such file or directory\n{summed(films)}", said)
    status, out, said = call("table", FILM, LISTING)
    settle("table, all answered", status == 0 and said.startswith("2 films, 2 with a plan"), (status, said))
    settle("table, one refused", call("table", FILM, SHORT)[0] == 1)
    (folder / "a.txt").write_text("x")
    for words in ([folder], [LISTING, folder]):
        status, out, said = call("table", *words)
        right = (status, out) == (2, b"") and said.count("\n") == 1 and str(folder) in said
        settle(f"table of {len(words)}, a folder without jobs", right, said)
    (folder / "zeros.job").write_bytes(coded([(0, 0, 0, 0)], [0]))
    settle("table of zeros", call("table", folder)[::2] == (0, "1 film, 1 with a plan\n"), call("table", folder))
    status, out, said = call("table", folder, "--out", folder / "zeros.job")
    settle("table over its input", status == 2 and (folder / "zeros.job").read_bytes()[:3] == b"RLY", said)


def test_table_killed(folder):
    """A process that ends early ends the command, with a line; so does an interrupt."""
    import library
    for k in range(12):
        shutil.copy(LISTING, folder / f"{k}.job")

    def replace(number, to):
        own, sent = os.getpid(), multiprocessing.Lock()  # One signal: the command's end is no place for a second.
        library.plan = lambda data: sent.acquire(block=False) and os.kill(own if to == "own" else os.getpid(), number) or signal.pause()

    for number, to, what in ((signal.SIGKILL, "other", "ended early"), (signal.SIGTERM, "own", "interrupted")):
        found = call("table", folder, "--out", folder / "o.csv", before=on_cores(2, lambda number=number, to=to: replace(number, to)))
        right = found[:2] == (2, b"") and what in found[2] and found[2].count("\n") == 1 and not (folder / "o.csv").exists()
        settle(f"table, {what}", right, found)


def test_table_progress(folder):
    """A bar on a terminal, which is gone at the end, and on nothing else."""
    for k in range(12):
        shutil.copy(LISTING, folder / f"{k}.job")
    ours, theirs = pty.openpty()
    done = subprocess.run([MAGPIERACK, "table", folder], stdout=subprocess.PIPE, stderr=theirs)
    os.close(theirs)
    shown = b""
    while True:
        try:
            piece = os.read(ours, 4_096)
        except OSError:
            break
        if not piece:
            break
        shown += piece
    os.close(ours)
    right = done.returncode == 0 and shown.count(b"\x1b[K") == 1 and b"12 films, 12 with a plan" in shown.split(b"\x1b[K")[-1]
    # With one core there is no bar.
    bars = [int(word) for word in re.findall(rb"\] (\d+) of 12 films", shown)]
    settle("a bar on a terminal", right and bars == list(range(1, 13)) or len(os.sched_getaffinity(0)) == 1, shown)
    settle("no bar elsewhere", "\r" not in call("table", folder)[2])


def parts_of(svg):
    """The elements that have an id."""
    return {part.get("id"): part for part in svg.iter() if part.get("id")}


def expect_tree(name, svg, data):
    """The picture of a tree against the program's rows."""
    due, rules, parts = Answers(data), Rules(*read(data)), parts_of(svg)
    peak = max(rules.frames)
    wide = max(peak, 1, *due.peaks) if due.peaks else max(peak, 1)
    held = rules.held(due.rows) if due.rows else [None] * len(rules.records)
    for i in rules.links:
        peaks = {"before": peak, **({"after": due.peaks[i - 1]} if due.peaks else {})}
        widths = {kind: float(parts[f"{kind}-{i}"].get("stroke-width")) for kind in ("before", "after") if f"{kind}-{i}" in parts}
        right = widths.keys() == peaks.keys()
        right = right and all(abs(widths[kind] - max(26 * value / wide, 0.5)) < 0.006 for kind, value in peaks.items())
        words = " → ".join(f"{value:,}" for value in peaks.values())
        texts = [part.text for part in parts[f"link-{i}"] if part.tag == f"{SVG}text"]
        settle(f"{name}, the link into {i}", right and texts[0] == words, (widths, peaks, texts))
        settle(f"{name}, node {i}", is_node(parts, rules, i, held[i - 1]), ET.tostring(parts[f"node-{i}"]))
    slow = [i for i in rules.links if rules.rate(i) < rules.least_rate()] if due.rate[0] else []
    marks = {i: [f"rate {rules.rate(i):,}, needs {rules.least_rate():,}"] for i in slow}
    if due.memory[0]:
        slot = min(found[0] for found in map(rules.crossing, rules.links) if found)
        leaf = first_leaf(rules, slot, parts)
        marks.setdefault(leaf, []).append(f"starves in slot {slot:,}")
    found = {int(key.split("-")[1]): parts[f"link-{key.split('-')[1]}"][-1].text for key in parts if key.startswith("refused-")}
    settle(f"{name}, marks", found == {i: "; ".join(words) for i, words in marks.items()}, (found, marks))


def first_leaf(rules, slot, parts):
    """Of the leaves that miss most in a slot the one that is marked, or the first."""
    missing = {i: rules.demand(i, slot) - rules.upper(i, slot) for i in rules.leaves}
    most = [i for i in rules.leaves if missing[i] == max(missing.values())]
    return next((i for i in most if f"refused-{i}" in parts), most[0])


def is_node(parts, rules, i, held):
    """Whether a node shows its memory, and how full it gets."""
    memory = rules.memory(i)
    words, _, full = parts[f"memory-{i}"].text.partition(", ")
    bar = parts.get(f"held-{i}")
    if words != f"{memory:,} B" or f"{'screen' if i in rules.leaves else 'box'} {i}" not in parts[f"node-{i}"][1].text:
        return False
    if held is None or memory == 0:
        return bar is None and full == ""
    return is_share(full.removesuffix(" full"), held, memory) and abs(float(bar.get("width")) - 160 * held / memory) < 0.006


def test_tree(folder):
    """The tree: widths by the peaks, memories, what is held, and marks where something is refused."""
    rng, file, out = random.Random(137), folder / "a.job", folder / "a.svg"
    jobs = [FILM.read_bytes(), LISTING.read_bytes(), SHORT.read_bytes(), coded([(0, 3, 0, 0)], [0, 0])]
    jobs += [coded(*make(rng)) for make in (random_job, starving_job, slow_job) for _ in range(7)]
    jobs += [coded([(i, 0, 5, 7) for i in range(63)], [9]), coded([(0, 0, 5, 7)] * 63, [9, 4])]
    for k, data in enumerate(jobs):
        file.write_bytes(data)
        status, printed, _ = call("picture", file, "--out", out)
        settle(f"tree {k}, status", (status, printed) == (1 if Answers(data).memory[0] else 0, b""), status)
        expect_tree(f"tree {k}", ET.parse(out).getroot(), data)
    status, printed, said = call("picture", FILM, "--slots", "1-2")
    settle("slots of no link", (status, printed) == (2, b"") and "--slots" in said, said)


def test_crossing(folder):
    """The picture of a link without a plan: the first slot in which its curves cross, and by how many bytes."""
    rng, file, out, kinds = random.Random(139), folder / "a.job", folder / "a.svg", set()
    for k in range(10):
        records, frames = starving_job(rng)
        file.write_bytes(coded(records, frames))
        rules = Rules(records, frames)
        planned = Answers(coded(records, frames)).memory[0] == 0
        for i in rng.sample(rules.links, 3):
            status = call("picture", file, i, "--out", out)[0]
            parts, found = parts_of(ET.parse(out).getroot()), rules.crossing(i)
            label = parts["crossing-label"].text if "crossing" in parts else None
            due = f"the curves cross first in slot {found[0]:,}, by {found[1]:,} byte{'s' * (found[1] != 1)}" if found else None
            right = (status, label) == (0 if planned else 1, due) and ("planned" in parts) == planned
            settle(f"crossing {k}, link {i}", right, (label, due))
            if found:
                x = float(re.match(r"M(\S+) ", parts["crossing"].get("d"))[1])
                settle(f"crossing {k}, link {i}, its place", abs(x - (92 + 732 * found[0] / rules.last)) < 0.06, x)
            kinds.add(found is not None)
    settle("links that cross and others", kinds == {True, False}, kinds)


def sheet_of(data):
    """The page as elements by their ids, and its text."""
    text = data.decode()
    settle("a sheet's first line", text.startswith("<!DOCTYPE html>\n"))
    page = ET.fromstring(text.split("\n", 1)[1])
    return page, {part.get("id"): part for part in page.iter() if part.get("id") and part.tag.startswith(XHTML)}, text


def expect_sheet(name, data, file, unit, page, parts, date):
    """The facts, every number of the table of nodes, both answers and the two pictures."""
    due, rules = Answers(data), Rules(*read(data))
    rows = [[cell.text for cell in row] for row in parts["facts"].iter(f"{XHTML}tr")]
    version = re.search('RELAY_VERSION_TEXT "(.*)"', (ROOT / "include/relay.h").read_text())[1]
    facts = {"Unit": unit, "Date": date, "Library": f"relay {version}, proved", "Job": str(file),
             "SHA-256 of the job": hashlib.sha256(data).hexdigest()}
    film = [f"{len(rules.frames):,} frame", f"{rules.sums[-1]:,} byte"]
    settle(f"{name}, facts", facts.items() <= dict(rows).items() and all(word in dict(rows)["Film"] for word in film), rows)
    held, before = rules.held(due.rows) if due.rows else [], max(rules.frames)
    rows = [[cell.text for cell in row] for row in parts["nodes"].iter(f"{XHTML}tr")][1:]
    for i, row in zip(rules.links, rows, strict=True):
        leaf = i in rules.leaves
        first = [f"{i}, {'screen' if leaf else 'box'}", str(rules.parent(i) or "store"), str(rules.delay(i)) if leaf else "-"]
        first += [f"{number:,}" for number in (rules.memory(i), rules.rate(i), before)]
        peaks = ["-", "-"] if not due.rows else [f"{due.peaks[i - 1]:,}", f"{held[i - 1]:,}"]
        need = f"{due.memories[i - 1]:,}" if due.memories else "-"
        share = row[7] == "-" if not due.rows else is_share(row[7], due.peaks[i - 1], before)
        settle(f"{name}, node {i}", row[:6] == first and [row[6], row[8]] == peaks and share and row[9] == need, row)
    for question, number, figures in (("memories", due.memory[0], due.memory[1:2]), ("rates", due.rate[0], due.rate[1:3])):
        part = parts[f"from-{question}"]
        words = f"From {question}: refused by {number}: " if number else f"From {question}: "
        numbers = [figure(word) for word in re.findall(r"\d[\d,]*", part.text)]
        right = part.text.startswith(words) and (part.get("class") == "refused") == bool(number)
        settle(f"{name}, from {question}", right and (number or numbers[-len(figures):] == figures), part.text)
    titles = [part.text for part in page.iter(f"{SVG}title")]
    slot = None if due.rows else min(found[0] for found in map(rules.crossing, rules.links) if found)
    link = due.peaks.index(max(due.peaks)) + 1 if due.rows else None
    links = [link] if link else [i for i in rules.leaves if rules.crossing(i) and rules.crossing(i)[0] == slot]
    right = titles[0].endswith(": the tree") and any(titles[1].endswith(f": link into node {i}") for i in links)
    settle(f"{name}, pictures", right, titles)


# Names of units, and what the sheet shows of each.
UNITS = [("Training ship 7", "Training ship 7"), ("<b>&amp;\"'</b>", "<b>&amp;\"'</b>"), ("a\x00b\x1b\n\udcff\ufffe", "a?b????")]


def test_sheet(folder):
    """The page is well-formed and needs nothing else; everything in it is the program's."""
    rng = random.Random(149)
    jobs = [FILM.read_bytes(), SHORT.read_bytes(), coded([(0, 0, 4, 5), (1, 0, 0, 0), (1, 1, 5, 4)], [4, 10, 1])]
    jobs += [coded(*make(rng)) for make in (random_job, slow_job) for _ in range(4)]
    for k, data in enumerate(jobs):
        unit, shown = UNITS[k % 3]
        file = folder / ["a.job", "<&>\"'.job"][k % 2]
        file.write_bytes(data)
        date = "2024-02-29" if k % 2 else None
        status, out, _ = call("sheet", file, "--unit", unit, *(["--date", date] if date else []))
        page, parts, text = sheet_of(out)
        settle(f"sheet {k}, status", status == Answers(data).status, status)
        expect_sheet(f"sheet {k}", data, file, shown, page, parts, date or datetime.date.today().isoformat())
        rest = text.replace('xmlns="http://www.w3.org/2000/svg"', "").replace('xmlns="http://www.w3.org/1999/xhtml"', "")
        outside = [word for word in ("http", "src=", "href", "@import", "url(", "<script", "<link") if word in rest]
        settle(f"sheet {k}, nothing outside", not outside, outside)


def test_sheet_words(folder):
    wrong = ["", "2026-02-30", "2026-2-3", "20260203", "x", "2026-13-01", "\u0662\u0660\u0662\u0666-01-01", "2026-W01-1", "0000-01-01"]
    for word in wrong:
        status, out, said = call("sheet", FILM, "--unit", "u", "--date", word)
        settle(f"sheet --date {word!r}", (status, out) == (2, b"") and "--date" in said and said.count("\n") == 1, (status, said))
    for words in ([], ["--unit", ""], ["--unit", " "]):
        settle(f"sheet without a unit, {words}", call("sheet", FILM, *words)[0] == 2)
    (folder / "a.job").write_bytes(coded([(0, 0, GREATEST_AMOUNT + 1, 1)], [GREATEST_FRAME]))
    status, out, said = call("sheet", folder / "a.job", "--unit", "u", "--out", folder / "s.html")
    settle("sheet of a refused job", (status, out, (folder / "s.html").exists()) == (1, b"", False) and "refused by 9" in said, said)


def test_help(folder):
    """Every help is printed, and every example in it works as shown."""
    shutil.copytree(ROOT / "examples", folder / "examples")
    commands = ["plan", "why", "table", "picture", "sheet", "radio", "leaf", "job"]
    count = 0
    for words in [[], *([name] for name in commands), *(["job", name] for name in ("write", "read", "check", "put-back"))]:
        status, out, said = call(*words, "--help")
        text = out.decode()
        settle(f"help of {words}", (status, said, call(*words, "-h")[1]) == (0, "", out) and text.startswith("usage: "), said)
        lines = re.findall(r"(?m)^    (\./magpierack .+?)(?: {4,}.*)?$", text)
        settle(f"help of {words}, an example", bool(lines) and max(map(len, text.splitlines())) <= 140, text)
        for line in lines:
            given = shlex.split(line)[1:]
            done = call(*given, cwd=folder)
            refused = "short.job" in line or line.endswith("table examples")
            settle(f"example '{line}'", done[0] == (1 if refused else 0), done)
            outs = [given[given.index(word) + 1] for word in ("--out", "--picture") if word in given]
            right = all((folder / name).stat().st_size for name in outs) and (outs or done[1] or given[0] == "job")
            settle(f"example '{line}', its files", right, outs)
            count += 1
    settle("examples", count > 15, count)
    settle("no words, and help", call()[:2] == call("--help")[:2] == call("help")[:2] and call("help", "plan") == call("plan", "--help"))
    version = re.search('RELAY_VERSION_TEXT "(.*)"', (ROOT / "include/relay.h").read_text())[1]
    settle("--version", call("--version") == (0, f"magpierack {version}\n".encode(), ""), call("--version"))


TESTS = [test_table, test_table_words, test_table_killed, test_table_progress, test_tree, test_crossing, test_sheet, test_sheet_words,
         test_help]
