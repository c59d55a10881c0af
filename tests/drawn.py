"""Tests the curves and the pictures: the curves against the library's peaks and its refusals, the parts, the heights and the numbers of
pictures of links against the library's plans, and that what the documents show is what the commands give."""
import random
import re
import xml.etree.ElementTree as ET

from c_examples import PLAN, peaks_of
from cases import FILM, GREATEST_AMOUNT, GREATEST_FRAME, LISTING, call, coded, expect_kept, frames_of, output_folder, random_job, run
from tally import ROOT, settle

import curves  # From tools/, which cases.py puts on the path.
import jobs

SVG = "{http://www.w3.org/2000/svg}"
CURVES = ("upper", "planned", "lower")
# Tree Q with a memory too small by a byte: refused by 12.
STARVED = coded([(0, 0, 4, 5), (1, 0, 0, 10), (1, 1, 5, 4)], [4, 10, 1])


def curves_of(bytes_):
    return curves.Curves(jobs.from_bytes(bytes_)[0])


def test_curves(folder):
    """The tools' curves by document 01's formula for the least peak, against the library: its peaks, and 12 where lower passes upper."""
    rng = random.Random(19)
    for k in range(80):
        bytes_ = coded(*random_job(rng))
        own = curves_of(bytes_)
        pairs = [(own.lower(i), own.upper(i)) for i in own.job.links()]
        if any(low > high for pair in pairs for low, high in zip(*pair)):
            settle(f"curves {k}, refused by 12", run(PLAN, "-", stdin=bytes_)[1].startswith(b"12\n"))
            continue
        slots = range(own.last + 1)
        least = [max(0, *(-((high[j] - low[s]) // (s - j)) for s in slots for j in range(s))) for low, high in pairs]
        settle(f"curves {k}, least peaks", peaks_of(bytes_) == least, (peaks_of(bytes_), least))


def drawn(svg, name):
    """The element with that id."""
    return next(part for part in svg.iter() if part.get("id") == name)


def shown(svg):
    """All elements with an id, and how many circles there are."""
    parts = [(part.tag.replace(SVG, ""), part.get("id")) for part in svg.iter() if part.get("id")]
    return sorted(parts), sum(part.tag == SVG + "circle" for part in svg.iter())


def expected_parts(plan, crossing):
    names = ("upper", "lower", "before", "peak-before") + ("planned", "after", "peak-after") * plan + ("crossing",) * crossing
    texts = ("peak-before-label",) + ("peak-after-label",) * plan + ("crossing-label",) * crossing
    return sorted([("path", name) for name in names] + [("text", name) for name in texts] + [("g", "carried"), ("g", "sent")])


def some_jobs(seed, count):
    rng = random.Random(seed)
    return [(f"random job {k}", coded(*random_job(rng))) for k in range(count)]


def test_pictures(folder):
    """Each picture of a link is well-formed, has its parts, and shows the library's peaks; so does the table of plan."""
    files = [(FILM.name, FILM.read_bytes()), (LISTING.name, LISTING.read_bytes()), ("zeros", coded([(0, 3, 0, 0)], [0, 0]))]
    for name, bytes_ in files + [case for case in some_jobs(23, 24) if peaks_of(case[1])]:
        (folder / "p.job").write_bytes(bytes_)
        frames = frames_of(bytes_)
        peaks, last = peaks_of(bytes_), int(run(PLAN, "-", stdin=bytes_)[1].split(b" ")[1])
        links = list(enumerate(peaks, 1))
        for i, peak in links if name == FILM.name else links[:1]:
            done = call("picture", folder / "p.job", i, "--out", folder / "p.svg")
            svg = ET.parse(folder / "p.svg").getroot()
            settle(f"{name}, link {i}, parts", done == (0, b"", "") and shown(svg) == (expected_parts(True, False), 2), (done, shown(svg)))
            points = [drawn(svg, part).get("d").count("L") for part in CURVES]
            level = [drawn(svg, part).get("d").count("H") for part in ("before", "after")]
            settle(f"{name}, link {i}, points", (points, level) == ([last] * 3, [last] * 2), (points, level))
            labels = [drawn(svg, f"peak-{part}-label").text for part in ("before", "after")]
            due = [f"{number:,} byte{'s' * (number != 1)}" for number in (max(frames), peak)]
            settle(f"{name}, link {i}, peaks", labels == due, labels)
        table = call("plan", "--from", "memories", folder / "p.job")[1].decode()
        found = [[int(cell.replace(",", "")) for cell in line.split()[-3:-1]] for line in table.splitlines() if line.startswith("node ")]
        settle(f"{name}, table", found == [[max(frames), peak] for peak in peaks], found)


def test_starved(folder):
    """Where there is no plan, each link is drawn without one, and the first slot in which its curves cross is marked."""
    seen = set()
    for name, bytes_ in [("tree Q", STARVED)] + [case for case in some_jobs(41, 60) if not peaks_of(case[1])][:12]:
        (folder / "p.job").write_bytes(bytes_)
        own = curves_of(bytes_)
        for i in own.job.links():
            status, _, said = call("picture", folder / "p.job", i, "--out", folder / "p.svg")
            svg = ET.parse(folder / "p.svg").getroot()
            settle(f"{name}, link {i}, refused", status == 1 and "refused by 12" in said and said.count("\n") == 1, (status, said))
            pairs = enumerate(zip(own.lower(i), own.upper(i)))
            slot, missing = next(((k, low - high) for k, (low, high) in pairs if low > high), (None, 0))
            crossed = slot is not None
            settle(f"{name}, link {i}, parts", shown(svg) == (expected_parts(False, crossed), 1 + crossed), shown(svg))
            if crossed:
                label = drawn(svg, "crossing-label").text
                due = f"the curves cross first in slot {slot:,}, by {missing:,} byte{'s' * (missing != 1)}"
                settle(f"{name}, link {i}, crossing", label == due, label)
            seen.add(crossed)
    settle("links with and without a crossing", seen == {True, False}, seen)


def heights(svg, name):
    """The heights of the points of a line."""
    return [float(point.split(" ")[1]) for point in drawn(svg, name).get("d")[1:].split("L")]


def wrong_heights(ys, values):
    """The places of points that are not as high as their numbers; the least number is at the foot and the greatest at the top."""
    foot, top, low, high = max(ys), min(ys), min(values), max(values)
    return [k for k, (y, value) in enumerate(zip(ys, values)) if abs(foot + (top - foot) * (value - low) / (high - low) - y) > 0.11]


def test_drawn(folder):
    """The lines of a picture are at the heights of their numbers, by what is carried or by the distance above the lower curve."""
    seen, rng = set(), random.Random(43)
    # Memories for nearly the whole film: the upper curve is far above what is planned, and is drawn along the top.
    frames = [rng.randrange(900, 1_100) for _ in range(400)]
    (folder / "roomy.job").write_bytes(coded([(0, 0, 300_000, 0), (1, 0, 90_000, 0)], frames))
    for file, i in ((FILM, 1), (FILM, 2), (LISTING, 1), (LISTING, 3), (folder / "roomy.job", 1)):
        row = [int(word) for word in run(PLAN, file)[1].decode().splitlines()[i].split()[2:]]
        own = curves_of(file.read_bytes())
        svg = ET.fromstring(call("picture", file, i)[1])
        above = any(part.text and part.text.startswith("above the lower curve") for part in svg.iter(SVG + "text"))
        base = own.lower(i) if above else [0] * len(row)
        rows = {"upper": own.upper(i), "planned": row, "lower": own.lower(i)}
        ys = [y for name in CURVES for y in heights(svg, name)]
        values = [value - less for name in CURVES for value, less in zip(rows[name], base)]
        pressed = any(part.get("id") == "pressed" for part in svg.iter())
        most = 2 * max(sent - low for sent, low in zip(row, own.lower(i))) if pressed else max(values)
        wrong = wrong_heights(ys, [min(value, most) for value in values])
        settle(f"{file.name}, link {i}: the rows as drawn", len(ys) == len(values) and not wrong, wrong)
        foot = float(re.match(r"M\S+ ([0-9.]+)", drawn(svg, "after").get("d")).group(1))
        top = float(re.match(r"M\S+ ([0-9.]+)", drawn(svg, "peak-after").get("d")).group(1))
        ys = [float(y) for y in re.findall(r"V([0-9.]+)H", drawn(svg, "after").get("d"))]
        rises = [late - early for early, late in zip(row, row[1:])]
        wrong = wrong_heights([foot, *ys, top], [0, *rises, max(rises)])
        settle(f"{file.name}, link {i}: the bytes of each slot as drawn", len(ys) == len(rises) and not wrong, wrong)
        seen.add((above, pressed))
    settle("each way to draw the curves", seen == {(False, False), (True, False), (True, True)}, seen)


def test_shown(folder):
    """What README and the manual show is what the commands give."""
    done = call("picture", FILM, 2)
    settle("docs/film.svg is up to date", done == (0, (ROOT / "docs/film.svg").read_bytes(), ""), done[::2])
    table = call("table", "--markdown", "examples/film.job", cwd=ROOT)[1].decode()
    settle("README's table is up to date", table in (ROOT / "README.md").read_text(), table)
    manual = (ROOT / "docs/MANUAL.md").read_text()
    for words in (("radio", "examples/film.job", "4000", "8000", "16000"), ("why", "examples/short.job")):
        shown = call(*words, cwd=ROOT)[1].decode()
        settle(f"the manual's listing of {words[0]} is up to date", f"```\n{shown}```\n" in manual, shown)
    settle("the manual's limits", all(f"above {limit:,}" in manual for limit in (GREATEST_AMOUNT, GREATEST_FRAME)))


def test_long(folder):
    """A long film's picture is small, and shows the peaks of all slots; so does that of some slots."""
    rng = random.Random(29)
    long = folder / "long & <wide>.job"
    frames = [rng.randrange(40_000) for _ in range(65_536)]
    long.write_bytes(coded([(0, 0, 900_000, 0), (1, 40, 700_000, 0)], frames))
    status, drawing, said = call("picture", long, 2)
    settle("the picture of a long film", (status, said) == (0, "") and len(drawing) < 200_000, (said, len(drawing)))
    svg = ET.fromstring(drawing)
    counts = [len(heights(svg, name)) for name in CURVES]
    settle("its points", len(set(counts)) == 1 and 800 < counts[0] <= 902, counts)
    labels = [drawn(svg, f"peak-{part}-label").text for part in ("before", "after")]
    settle("its peaks", labels == [f"{max(frames):,} bytes", f"{peaks_of(long.read_bytes())[1]:,} bytes"], labels)
    for part in ("before", "after"):
        ys = [float(y) for y in re.findall(r"V([0-9.]+)H", drawn(svg, part).get("d"))]
        line = float(re.match(r"M\S+ ([0-9.]+)", drawn(svg, f"peak-{part}").get("d")).group(1))
        settle(f"its bytes {part} smoothing reach the peak", min(ys) == line and len(ys) <= 900, (min(ys), line))
    settle("its title", svg.find(SVG + "title").text == "long & <wide>: link into node 2", svg.find(SVG + "title").text)
    status, drawing, said = call("picture", long, 2, "--slots", "100-160")
    count = drawn(ET.fromstring(drawing), "planned").get("d").count("L")
    settle("the picture of some slots", (status, count, said) == (0, 60, ""), (status, count, said))
    (folder / "wide.job").write_bytes(coded([(0, 4_096, GREATEST_AMOUNT, 0)], [GREATEST_FRAME] * 65_536))
    status, drawing, said = call("picture", folder / "wide.job", 1)
    units = re.findall(r"\((\w+)\)</text>|upper: to (\d+ \w+)", drawing.decode())
    settle("the units of the largest film", (status, said, units) == (0, "", [("GB", ""), ("", "18 TB"), ("MB", "")]), (said, units))


def test_one_slot(folder):
    """Of a group of slots the one with the curves nearest is drawn: where they cross in one slot of many, the lines cross too."""
    for slot in (12_345, 12_346, 40_001, 65_536):
        frames = [5] * 65_536
        frames[slot - 1] = 5_000
        # Screen 2 is due a frame before screen 3, and may be ahead of it by 3,000 bytes.
        (folder / "one.job").write_bytes(coded([(0, 0, 0, 0), (1, 0, 0, 0), (1, 1, 3_000, 0)], frames))
        status, drawing, _ = call("picture", folder / "one.job", 2)
        svg = ET.fromstring(drawing)
        pairs = list(zip(heights(svg, "upper"), heights(svg, "lower")))
        crossed = sum(high > low for high, low in pairs)  # A greater number is higher up, and so has a lesser y.
        settle(f"one slot of many, {slot}", (status, crossed) == (1, 1) and len(pairs) <= 902, (status, crossed, len(pairs)))
        label = drawn(svg, "crossing-label").text
        settle(f"its label, {slot}", label == f"the curves cross first in slot {slot:,}, by 2,000 bytes", label)


def test_undrawn(folder):
    """What can't be drawn is said, and nothing is written."""
    own = output_folder(folder, "undrawn")
    for name, words, what in (
        ("no link 0", ("a.job", "0"), "no link into node 0; the job has links into nodes 1 to 6"),
        ("no link 7", ("a.job", "7"), "no link into node 7"),
        ("a link that is no number", ("a.job", "x"), "link 'x' is not a whole number"),
        ("no file", ("none", "1"), "none: can't be read: No such file"),
        ("no slots", ("a.job", "1", "--slots", "9-9"), "the plan has slots 0 to 258"),
        ("slots past the end", ("a.job", "1", "--slots", "0-259"), "the plan has slots 0 to 258"),
        ("slots backward", ("a.job", "1", "--slots", "9-8"), "the plan has slots 0 to 258"),
        ("slots that are no numbers", ("a.job", "1", "--slots", "9"), "slot '' is not a whole number"),
        ("slots without a link", ("a.job", "--slots", "1-2"), "--slots are of a link"),
        ("usage", (), "required: JOB"),
    ):
        expect_kept(f"picture, {name}", own, what, call, "picture", *words, "--out", "x.svg")
    done = call("picture", "a.txt", 1, "--out", "x.svg", cwd=own)
    settle("picture, a refused job", done[:2] == (1, b"") and "a.txt: refused by 2: " in done[2] and not (own / "x.svg").exists(), done)


TESTS = (test_curves, test_pictures, test_starved, test_drawn, test_shown, test_long, test_one_slot, test_undrawn)
