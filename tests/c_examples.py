"""Tests the C examples: plan.c against the program `relay` and against document 02's words, feed.c against the bytes that go in, how both
are built, and that no answer comes from an old library."""
import os
import random
import resource
import signal
import subprocess

from cases import (
    FILM, GREATEST_AMOUNT, GREATEST_FRAME, LISTING, LONGEST_DELAY, PROGRAM, STATIC_LIBRARY, coded, expect_kept, frames_of, listed,
    output_folder, random_job, run)
from own import constant_rate
from tally import ROOT, settle, write_executable

PLAN, RUN = ROOT / "target/examples/plan", ROOT / "examples/c/run"
FEED, RUN_FEED = ROOT / "target/examples/feed", ROOT / "examples/c/feed"
USAGE = "usage: plan [--csv | --rates RATE,RATE,...] FILE\n"
FEED_USAGE = "usage: feed FILE OUT1 OUT2 OUT3\n"
# The C examples: what builds and runs each, and what it says without words.
EXAMPLES = [(RUN, PLAN, USAGE), (RUN_FEED, FEED, FEED_USAGE)]
CHILDREN = ("out 1", "out 2", "out 3")


def library_says(bytes_):
    """The number that refuses a job, of 1 to 10, or 0, from the library."""
    status, out, said = run(PLAN, "-", stdin=bytes_)
    first = int(out.split(b"\n")[0].split(b" ")[0])
    return first if status == 2 else 0


def peaks_of(bytes_):
    """The peaks that the library gives."""
    return [int(line.split()[1]) for line in run(PLAN, "-", stdin=bytes_)[1].decode().splitlines()[1:-1]]


def test_built(folder):
    """Both C examples are built anew, so that a warning of the compiler fails."""
    for script, program, usage in EXAMPLES:
        program.unlink(missing_ok=True)
        done = run(script)
        settle(f"{script.name} builds", done == (2, b"", usage) and program.exists(), done)


def test_build(folder):
    """Where a C example can't be built, the one that was there stays."""
    compiler = folder / "half"
    write_executable(compiler, '#!/bin/sh\nwhile [ "$1" != -o ]; do shift; done\nprintf half >"$2"\nexit 1\n')
    for script, program, usage in EXAMPLES:
        before = listed(program.parent)
        os.utime(program, (0, 0))
        done = run(script, env={**os.environ, "CC": str(compiler)})
        settle(f"a compiler that fails, {program.name}", done == (2, b"", "") and listed(program.parent) == before, done)
        done = run(script)
        settle(f"{program.name} built again", done == (2, b"", usage) and program.stat().st_mtime > 0, done)
        link = folder / f"link to {script.name}"
        link.symlink_to(script)
        settle(f"{program.name} through a link", run(link, cwd=folder) == (2, b"", usage))


def test_old_library(folder):
    """A library that is older than its sources is made again, and nothing is answered from the old one."""
    built = STATIC_LIBRARY.stat().st_mtime_ns
    toolchain = folder / "rt"
    for name, status, due in (("made again", 0, (2, b"", USAGE)), ("not made", 1, (2, b"", ""))):
        os.utime(STATIC_LIBRARY, ns=(0, 0))
        does = f'echo "$PWD $*" >"{folder}/asked"\nmkdir -p out && cp "{STATIC_LIBRARY}" out/librelay_c.a\ntouch "{STATIC_LIBRARY}"'
        write_executable(toolchain, f"#!/bin/sh\n{does}\nexit {status}\n")
        done = run(RUN, env={**os.environ, "PATH": f"{folder}:{os.environ['PATH']}"})
        asked = (folder / "asked").read_text()
        settle(f"an old library, {name}", done == due and asked == f"{ROOT}/crates/relay_c lib\n", (done, asked))
    os.utime(STATIC_LIBRARY, ns=(built, built))


def answered(lines):
    """The status that the program's lines call for."""
    questions = [lines[0].split()[0], lines[-1].split()[0]]
    return 0 if questions == ["0", "0"] else 1


def test_plan(folder):
    """The C example against the program, and its CSV against the rows."""
    rng = random.Random(13)
    jobs = [(file.name, file.read_bytes()) for file in (LISTING, FILM)] + [(f"random job {k}", coded(*random_job(rng))) for k in range(80)]
    seen = set()
    for name, bytes_ in jobs:
        expected = run(PROGRAM, stdin=bytes_)[1]
        lines = expected.decode().splitlines()
        status, out, said = run(PLAN, "-", stdin=bytes_)
        settle(f"{name}, lines", (status, out) == (answered(lines), expected), (status, out))
        settle(f"{name}, messages", said.count("refused by") == sum(word in ("12", "13") for word in (lines[0], lines[-1])), said)
        rows = [[int(word) for word in line.split()[2:]] for line in lines[1:-1]]
        header = ["slot"] + [f"node{i}" for i in range(1, len(rows) + 1)]
        csv = [header, *([k, *column] for k, column in enumerate(zip(*rows)))] if rows else []
        csv = "".join(",".join(str(word) for word in line) + "\n" for line in csv)
        settle(f"{name}, CSV", run(PLAN, "--csv", "-", stdin=bytes_)[:2] == (status, csv.encode()))
        seen.add((lines[0].split()[0], lines[-1].split()[0]))
    settle("both questions answered and refused", {("0", "0"), ("12", "0"), ("0", "13")} <= seen, seen)


def test_plan_failures(folder):
    """The C example on files that are no jobs, and where it can't read or write."""
    q = [(0, 0, 4, 5), (1, 0, 0, 10), (1, 1, 6, 4)]
    film = coded(q, [4, 10, 1])
    cases = [
        ("no bytes", b"", 1, "there are fewer than 10 bytes"),
        ("a wrong mark", b"x" * 300_000, 2, "the mark is not RLY"),
        ("far too long", film + bytes(3_000_000), 6, "the length does not fit"),
        ("a parent too high", coded([(1, 0, 0, 0)], [1]), 7, "some parent is not below"),
        ("a memory too large", coded([(0, 0, GREATEST_AMOUNT + 1, 0)], [1]), 9, f"a memory or a rate is above {GREATEST_AMOUNT:,}\n"),
        ("a frame too large", coded([(0, 0, 0, 0)], [GREATEST_FRAME + 1]), 10, f"a frame is above {GREATEST_FRAME:,} bytes\n"),
    ]
    for name, bytes_, number, what in cases:
        (folder / "c.job").write_bytes(bytes_)
        status, out, said = run(PLAN, folder / "c.job")
        told = said.startswith(f"plan: {folder}/c.job: the job is refused by {number}: {what}") and said.count("\n") == 1
        settle(f"plan, {name}", (status, out) == (2, f"{number}\n".encode()) and told, (status, out, said))
        settle(f"plan --csv, {name}", run(PLAN, "--csv", folder / "c.job")[:2] == (2, b""))
    for name, words, message in (
        ("no file", ("none",), "plan: none: No such file or directory\n"),
        ("a folder", ("/",), "plan: /: Is a directory\n"),
        ("no words", (), USAGE),
        ("--csv alone", ("--csv",), USAGE),
        ("two files", ("a", "b"), USAGE),
    ):
        settle(f"plan, {name}", run(PLAN, *words, cwd=folder) == (2, b"", message), run(PLAN, *words, cwd=folder))
    for words in (["-"], ["--csv", "-"], ["--rates", "5", "-"]):
        with open("/dev/full", "wb") as full:
            done = subprocess.run([PLAN, *words], input=film, stdout=full, stderr=subprocess.PIPE)
        settle(f"plan {words} to a full output", done.returncode == 2 and b"could not be written" in done.stderr, done)
    settle("run takes the same words", run(RUN, LISTING, cwd="/")[:2] == (0, run(PROGRAM, stdin=LISTING.read_bytes())[1]))


def test_plan_largest(folder):
    """The C example on the largest jobs."""
    # With memory 0 each frame goes in its slot, so the row is known.
    rng = random.Random(17)
    frames = [rng.randrange(GREATEST_FRAME + 1) for _ in range(65_536)]
    row, sums = [0] * 4_096, 0
    for size in [0] + frames:
        sums += size
        row.append(sums)
    long = coded([(0, 4_096, 0, GREATEST_AMOUNT)], frames)
    text = f"0 69632 {sums}\n1 {max(frames)} {' '.join(map(str, row))}\n0 0 0 0\n"
    settle("plan, the longest film", run(PLAN, "-", stdin=long) == (0, text.encode(), ""))
    wide = coded([(0, 0, GREATEST_AMOUNT, 1)] * 63, [0] * 65_536)
    lines = run(PLAN, "--csv", "-", stdin=wide)[1].split()
    settle("plan, the most rows and frames", len(lines) == 65_538 and lines[-1] == b"65536" + b",0" * 63, lines[-1:])


def rate_table(frames, rates):
    """The status and the text that --rates gives."""
    found = [constant_rate(frames, rate) for rate in rates]
    text = "  rate, bytes a slot  number  delay, slots   memory, bytes\n"
    for rate, line in zip(rates, found):
        text += f"{rate:20}  " + (f"{0:6}  {line[0]:12}  {line[1]:14}\n" if line else f"{13:6}  no delay up to 4,096 serves\n")
    return 1 if None in found else 0, text.encode(), ""


def test_rates(folder):
    """The C example's --rates against document 02's words for the delay and the memory."""
    rng = random.Random(31)
    ends = [0, 1, 2, 2**64 - 1]
    jobs = [(file.name, file.read_bytes(), [*ends, 4, 5, 4_000, 60_000]) for file in (LISTING, FILM)]
    jobs.append(("a film of zeros", coded([(0, 0, 0, 0)], [0] * 9), ends))
    longest = [rng.randrange(GREATEST_FRAME + 1) for _ in range(65_536)]
    mean = sum(longest) // len(longest)
    jobs.append(("the longest film", coded([(0, 0, 0, 0)], longest), [mean * 9 // 10, mean * 99 // 100, mean, 2 * mean, 2**64 - 1]))
    jobs.append(("the largest film", coded([(0, 0, 0, 0)], [GREATEST_FRAME] * 65_536), [GREATEST_FRAME, GREATEST_AMOUNT, 2**64 - 1]))
    # At rate 1 a frame of 4,097 bytes waits for the longest delay, and one of 4,098 would wait longer.
    jobs += [(f"a frame of {size}", coded([(0, 0, 0, 0)], [size]), [1]) for size in (LONGEST_DELAY + 1, LONGEST_DELAY + 2)]
    for k in range(60):
        rates = [rng.choice((0, rng.randrange(70), rng.randrange(70), rng.randrange(2**64))) for _ in range(1 + k % 8)]
        jobs.append((f"random job {k}", coded(*random_job(rng)), rates))
    statuses = set()
    for name, bytes_, rates in jobs:
        expected = rate_table(frames_of(bytes_), rates)
        done = run(PLAN, "--rates", ",".join(map(str, rates)), "-", stdin=bytes_)
        settle(f"{name}, rates {rates}", done == expected, (done, expected))
        statuses.add(expected[0])
    settle("rates with and without a delay", statuses == {0, 1}, statuses)
    settle("run takes rates", run(RUN, "--rates", "5,00", LISTING, cwd="/") == rate_table([4, 10, 1], [5, 0]))


def test_rates_failures(folder):
    """The C example's --rates where there is nothing to ask."""
    for item in ("", "-1", "+1", " 1", "1 ", "1x", "0x10", "1.5", "1e3", "\u0664", str(2**64), "9" * 99):
        for words in (f"{item},5", f"5,{item}", "5," * 20 + item, *([item] if item else [])):
            done = run(PLAN, "--rates", words, LISTING)
            settle(f"rates {words!r}", done == (2, b"", f"plan: rate '{item}' is not a whole number from 0 to {2**64 - 1}\n"), done)
    (folder / "c.job").write_bytes(b"RLX" + bytes(9))
    refused = "the list of rates is refused by 16: there is no rate, or there are more than 8"
    cases = [(",".join("5" * count), LISTING, refused) for count in (0, 9, 10, 300)]
    cases += [(words, folder / "c.job", "the job is refused by 2: the mark is not RLY") for words in ("5", "", ",".join("5" * 9))]
    cases += [("5", folder / "none", "No such file or directory"), ("5", folder, "Is a directory")]
    for words, name, message in cases:
        done = run(PLAN, "--rates", words, name)
        settle(f"rates {words[:20]!r} of {name}", done == (2, b"", f"plan: {name}: {message}\n"), done)
    for words in (("--rates",), ("--rates", LISTING), ("--rates", "5", LISTING, "6"), ("--csv", "--rates", "5", LISTING)):
        settle(f"plan, {words}", run(PLAN, *words) == (2, b"", USAGE), run(PLAN, *words))


def test_feed(folder):
    """The C example of the byte store: each child's file is equal to the input, which has about as many bytes as are read, held or taken
    at once, or goes round the slice many times."""
    rng = random.Random(37)
    films = [rng.randbytes(size) for size in (0, 1, 2, 6, 7, 8, 129, 130, 131, 299, 300, 301, 999, 1_000, 1_001, 2_000, 12_345, 300_001)]
    for data in [*films, bytes(5_000), FILM.read_bytes()]:
        expected = "".join(f"{name}: {len(data)} bytes\n" for name in CHILDREN).encode(), ""
        for name, words, stdin in (("file", "film", b""), ("standard input", "-", data)):
            own = folder / f"feed {name} {len(data)}"
            own.mkdir()
            (own / "film").write_bytes(data)
            done = run(FEED, words, *CHILDREN, stdin=stdin, cwd=own)
            settle(f"feed of {len(data)} bytes from a {name}", done == (0, *expected), done)
            settle(f"its outputs, from a {name}", listed(own) == dict.fromkeys(("film", *CHILDREN), data), listed(own).keys())
    (own := folder / "feed run").mkdir()
    done = run(RUN_FEED, FILM, *CHILDREN, cwd=own)
    settle("examples/c/feed takes the same words", done[0] == 0 and listed(own) == dict.fromkeys(CHILDREN, FILM.read_bytes()), done)


def test_feed_failures(folder):
    """The byte store's example where a file can't be read or written: nothing is written over, and no part of an output is left."""
    own = output_folder(folder, "feed failures")
    (own / "old").write_text("as it was")

    def small():
        resource.setrlimit(resource.RLIMIT_FSIZE, (1_000, 1_000))
        signal.signal(signal.SIGXFSZ, signal.SIG_IGN)

    for name, words, what in (
        ("no file", ("none", *CHILDREN), "feed: none: No such file or directory\n"),
        ("a folder", (".", *CHILDREN), "feed: .: Is a directory\n"),
        ("an output that is there", ("a.job", "x", "y", "old"), "feed: old: File exists\n"),
        ("the input as output", ("a.job", "x", "a.job", "y"), "feed: a.job: File exists\n"),
        ("an output twice", ("a.job", "x", "y", "x"), "feed: x: File exists\n"),
        ("a folder as output", ("a.job", ".", "x", "y"), "feed: .: File exists\n"),
        ("no folder", ("a.job", "x", "none/y", "z"), "feed: none/y: No such file or directory\n"),
        ("no words", (), FEED_USAGE),
        ("two outputs", ("a.job", "x", "y"), FEED_USAGE),
        ("four outputs", ("a.job", "x", "y", "z", "u"), FEED_USAGE),
    ):
        expect_kept(f"feed, {name}", own, what, run, FEED, *words)
    expect_kept("feed past the most bytes of a file", own, ": File too large\n", run, FEED, "a.job", "x", "y", "z", preexec_fn=small)
    with open("/dev/full", "wb") as full:
        done = subprocess.run([FEED, "a.job", "x", "y", "z"], stdout=full, stderr=subprocess.PIPE, cwd=own)
    settle("feed to a full output", (done.returncode, done.stderr) == (2, b"feed: standard output: No space left on device\n"), done)
    settle("its outputs are whole", {(own / name).read_bytes() for name in "xyz"} == {FILM.read_bytes()})


TESTS = (
    test_built, test_build, test_old_library, test_plan, test_plan_failures, test_plan_largest, test_rates, test_rates_failures,
    test_feed, test_feed_failures,
)
