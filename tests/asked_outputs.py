"""Tests how ./magpierack ends: outputs that can't be written, interrupts, garbage, and the first use, which builds the library.

The library must have been built. The last line is 'N passed, M failed'."""
import itertools
import os
import pathlib
import random
import resource
import shutil
import signal
import subprocess
import sys
import time

from cases import FILM, LISTING, MAGPIERACK, call, coded, listed, random_job, run
import files
import library
from tally import BOUND, ROOT, settle, write_executable

# Each command that has an output, without it; the last takes its output as a word of its own.
COMMANDS = [["plan", "a.job"], ["plan", "--lines", "a.job"], ["plan", "--csv", "a.job"], ["plan", "--json", "a.job"], ["why", "a.job"],
            ["table", "a.job"], ["picture", "a.job"], ["picture", "a.job", "2"], ["sheet", "a.job", "--unit", "u"],
            ["radio", "a.job", "9000"], ["leaf", "a.job", "4"], ["job", "read", "a.job"], ["job", "put-back", "a.job"]]
FULL = ["--help"], ["plan", "--help"], ["--version"], ["job", "check", "a.job"]


def to(words, name):
    """A command's words with its output."""
    return [*words, name] if words[0] == "job" else [*words, "--out", name]


def one_line(said, what=""):
    return said.count("\n") == 1 and what in said and "Traceback" not in said


def output_folder(folder):
    shutil.copy(FILM, folder / "a.job")
    (folder / "old").write_text("as it was")
    return folder


def test_streams(folder):
    """Standard output that is closed, full, or whose reader is gone."""
    output_folder(folder)
    for words in [*(to(words, "-") for words in COMMANDS), *FULL]:
        reading, writing = os.pipe()
        os.close(reading)
        with open("/dev/full", "wb") as full, open(writing, "wb") as gone:
            for name, other, what in (("closed", {"before": lambda: os.close(1)}, "Bad file descriptor"),
                                      ("full", {"out": full}, "No space left"), ("whose reader is gone", {"out": gone}, "Broken pipe")):
                status, _, said = call(*words, cwd=folder, **other)
                right = status == 2 and one_line(said, f"standard output: can't be written: {what}")
                settle(f"{words} to an output {name}", right, (status, said))


def test_closed(folder):
    """With several processes too a stream that is closed stays closed: no pipe between them gets its number."""
    for k in range(12):
        shutil.copy(LISTING, folder / f"{k}.job")

    def closing(stream):
        def before():
            signal.alarm(60)
            os.sched_getaffinity = lambda _: {0, 1}
            own = library.read_job
            library.read_job = lambda name: own(name) if os.readlink(f"/proc/self/fd/{stream}") == "/dev/null" else os._exit(7)
            os.close(stream)
            files.hold_streams()

        return before

    for stream, due in ((0, (0, 37)), (1, (2, 0)), (2, (0, 37))):
        status, out, said = call("table", ".", cwd=folder, before=closing(stream))
        right = (status, out.count(b"\n")) == due and ("can't be written: Bad file descriptor" in said) == (stream == 1)
        settle(f"table of many, stream {stream} closed", right, (status, out, said))
    for streams, status in ((">&-", 2), ("2>&-", 0), (">&- 2>&-", 2), ("<&-", 0)):
        done = run("/bin/sh", "-c", f'exec timeout 60 "$0" table . {streams}', MAGPIERACK, cwd=folder)
        settle(f"table of many {streams}", done[0] == status and done[1].count(b"\n") == (0 if status else 37), done)


def test_files(folder):
    """Outputs that are folders, in no folder, or the input itself; every file is as it was."""
    output_folder(folder)
    (folder / "in").mkdir()
    (folder / "symbolic").symlink_to("a.job")
    os.link(folder / "a.job", folder / "hard")
    before = listed(folder)
    for words in COMMANDS:
        for out, what in (("in", "Is a directory"), ("none/x", "no file can be made in"), ("", "can't be written"),
                          *((name, "the same file as the input") for name in ("a.job", "./in/../a.job", "symbolic", "hard"))):
            status, printed, said = call(*to(words, out), cwd=folder)
            settle(f"{words} to {out}", (status, printed, listed(folder)) == (2, b"", before) and one_line(said, what), (status, said))
        with open(folder / "a.job", "ab") as end:
            status, _, said = call(*to(words, "-"), cwd=folder, out=end)
        settle(f"{words} to the job's end", (status, listed(folder)) == (2, before) and one_line(said, "the same file"), (status, said))
    for words in (["radio", "a.job", "9000", "--picture"], ["leaf", "a.job", "4", "--picture"]):
        for out, what in (("in", "Is a directory"), ("a.job", "the same file")):
            status, printed, said = call(*words, out, cwd=folder)
            settle(f"{words} {out}", (status, printed, listed(folder)) == (2, b"", before) and one_line(said, what), (status, said))
        status, printed, said = call(*words, "in/x", "--out", "./in/x", cwd=folder)
        drawn = (folder / "in/x").read_bytes()
        settle(f"{words} and its table in one file", status == 2 and b"</svg>" in drawn and one_line(said, "the same file"), (status, said))


def nobody():
    os.setgroups([])
    os.setgid(BOUND["group"])
    os.setuid(BOUND["user"])


def test_modes(folder):
    """A file or a folder that may not be written stays as it is; the command meets the modes."""
    output_folder(folder)
    before = nobody if BOUND else None
    folder.chmod(0o777)
    if call("plan", "a.job", cwd=folder, before=before)[0] != 0:
        print("outputs that may not be written: LEFT OUT, as nobody can't run the command here")
        return
    (folder / "old").chmod(0o444)
    for mode, out, what in ((0o777, "old", "Permission denied"), (0o555, "new", "no file can be made in")):
        folder.chmod(mode)
        files = listed(folder)
        for words in COMMANDS:
            status, printed, said = call(*to(words, out), cwd=folder, before=before)
            right = (status, printed, listed(folder)) == (2, b"", files) and one_line(said, what)
            settle(f"{words} to {out}, mode {mode:o}", right, (status, said))
    folder.chmod(0o755)


def test_long(folder):
    """An output past the most bytes of a file leaves the old file and nothing beside it."""
    output_folder(folder)
    before = listed(folder)

    def small():
        signal.signal(signal.SIGXFSZ, signal.SIG_IGN)
        resource.setrlimit(resource.RLIMIT_FSIZE, (100, 100))

    for words, out in itertools.product(COMMANDS, ("old", "new")):
        status, printed, said = call(*to(words, out), cwd=folder, before=small)
        # The line on standard error is cut by the limit too.
        right = (status, printed, listed(folder)) == (2, b"", before) or words[0] in ("why", "radio") and status == 0
        settle(f"{words} to {out} past the most bytes", right and "Traceback" not in said, (status, said, listed(folder).keys()))
        (folder / "new").unlink(missing_ok=True)
        (folder / "old").write_text("as it was")


def test_stack(folder):
    """A stack that is too small for the library's calls is made larger, or it is said that it can't be."""
    small, most = 1 << 20, resource.getrlimit(resource.RLIMIT_STACK)[1]
    for name, limits, due in (("may grow", (small, most), 0), ("may not grow", (small, small), 2)):
        found = run(MAGPIERACK, "plan", "--lines", LISTING, preexec_fn=lambda: resource.setrlimit(resource.RLIMIT_STACK, limits))
        right = found[0] == due and (one_line(found[2], "ulimit -s 4096") if due else found[1].startswith(b"0 4 15\n"))
        settle(f"a small stack that {name}", right, found)


def interrupted_at(name, number, after):
    """Makes a function of os send the process a signal, before or after its work."""
    def before():
        own = getattr(os, name)

        def other(*words, **more):
            if name == "open" and not str(words[0]).endswith(".new"):
                return own(*words, **more)
            if not after:
                os.kill(os.getpid(), number)
            found = own(*words, **more)
            if after:
                os.kill(os.getpid(), number)
            return found

        signal.signal(signal.SIGINT, signal.default_int_handler)
        setattr(os, name, other)

    return before


def test_interrupts(folder):
    """An interrupt while a file is written: the old file stays, or the new one is whole, and nothing is left beside it."""
    output_folder(folder)
    whole = call("plan", "--lines", "a.job", cwd=folder)[1]
    signals = signal.SIGTERM, signal.SIGINT, signal.SIGHUP
    for name, number, after in itertools.product(("open", "fsync", "rename"), signals, (False, True)):
        (folder / "old").write_text("as it was")
        due = whole if (name, after) == ("rename", True) else b"as it was"
        found = call("plan", "--lines", "--out", "old", "a.job", cwd=folder, before=interrupted_at(name, number, after))
        right = found == (2, b"", "interrupted\n") and listed(folder) == {"a.job": FILM.read_bytes(), "old": due}
        settle(f"signal {number} {'after' if after else 'before'} {name}", right, (found, listed(folder).keys()))
    # A signal from outside, while the job is waited for.
    for number in signals:
        process = subprocess.Popen([MAGPIERACK, "plan", "-", "--out", "old"], stdin=subprocess.PIPE, stderr=subprocess.PIPE, cwd=folder,
                                   preexec_fn=lambda: signal.signal(signal.SIGINT, signal.default_int_handler))
        while not is_reading(process.pid):
            time.sleep(0.01)
        process.send_signal(number)
        said = process.communicate(timeout=30)[1]
        found = process.returncode, said
        settle(f"signal {number} while it reads", found == (2, b"magpierack: interrupted\n"), found)


def is_reading(process):
    """Whether Python runs in a process and waits for a pipe."""
    here = pathlib.Path(f"/proc/{process}")
    return b"magpierack.py" in (here / "cmdline").read_bytes() and "pipe_read" in (here / "wchan").read_text() or reads_by_call(here)


def reads_by_call(here):
    """The same where the kernel does not tell what is waited for: it sleeps, with the pipe in the place of standard input."""
    state = (here / "stat").read_text().rpartition(")")[2].split()[0]
    asleep = state == "S" and b"magpierack.py" in (here / "cmdline").read_bytes()
    return asleep and not (here / "fd/3").exists() and os.readlink(here / "fd/0").startswith("pipe:")


WORDS = ["plan", "why", "table", "picture", "sheet", "radio", "leaf", "job", "write", "read", "check", "put-back", "--out", "--csv",
         "--lines", "--json", "--from", "memories", "rates", "--unit", "--date", "--slots", "1-2", "1", "2", "4", "9000", "1-9:2",
         "--picture", "--markdown", "--delay", "-", "--memories", "1,2", "a.job", "b.job", ".", "--", "--help", "-h", "--version", "",
         "--x", "none.job", "o", "--out=o", "--from=x"]
# Places of a command where a number is due.
NUMBERS = [["radio", "a.job"], ["leaf", "a.job"], ["picture", "a.job"], ["picture", "a.job", "1", "--slots"],
           ["job", "put-back", "a.job", "o", "--memories", "1,2,3", "--delay"],
           ["job", "put-back", "a.job", "o", "--delay", "1", "--memories"]]


def expect_sound(name, found):
    """A status that has a meaning, and lines on standard error that can be read."""
    status, _, said = found
    lines = said.splitlines()
    right = status in (0, 1, 2) and "Traceback" not in said and "fault of ours" not in said
    settle(name, right and all(len(line) < 600 and line.isprintable() for line in lines) and (lines or status != 2), found)


def test_garbage_files(folder):
    """Random bytes as every file, by every command: no status but 0, 1 and 2, and no fault."""
    rng = random.Random(151)
    for k in range(39):
        data = bytearray(coded(*random_job(rng)))
        for _ in range(rng.randint(0, 3)):
            data[rng.randrange(len(data))] = rng.choice((0, 1, 255, rng.randrange(256)))
        data = bytes(data)
        data = rng.choice((data, data, rng.randbytes(rng.randrange(300)), b"RLY" + rng.randbytes(200), data[:rng.randrange(40)]))
        (folder / "a.job").write_bytes(data)
        words = COMMANDS[k % len(COMMANDS)]
        expect_sound(f"garbage {k}, {words}", call(*to(words, "-"), cwd=folder))
        expect_sound(f"garbage {k}, why", call("why", "a.job", cwd=folder))
        expect_sound(f"garbage {k} as a text", call("job", "write", "a.job", "o", cwd=folder))


def test_garbage_words(folder):
    """Random words, some with any letters and some very long."""
    rng = random.Random(157)
    shutil.copy(LISTING, folder / "a.job")
    shutil.copy(FILM, folder / "b.job")
    letters = [*map(chr, range(1, 256)), *map(chr, range(0xDC80, 0xDD00)), *(chr(rng.randrange(0xE000, 0x10FFFF)) for _ in range(99))]
    wild = ["".join(rng.choices(letters, k=9)) for _ in range(30)]
    long = ["x" * 70_000, "9" * 70_000, "--" + "y" * 70_000, "\n" * 3_000, "1-" * 3_000, "\u202e" * 500]
    for words, word in itertools.product(NUMBERS, [*long, wild[0], "9" * 4_400, "-1", "1-" + "9" * 4_400, "1-2:" + "9" * 4_400]):
        expect_sound(f"{words} {word[:20]!r}", call(*words, word, cwd=folder))
    for k in range(110):
        words = [rng.choice(WORDS[:13])] + [rng.choice(rng.choice((WORDS, WORDS, WORDS, wild, long))) for _ in range(rng.randint(0, 6))]
        expect_sound(f"words {k}: {[word[:20] for word in words]}", call(*words, cwd=folder))
        for name in ("a.job", "b.job"):
            source = LISTING if name == "a.job" else FILM
            settle(f"words {k}, {name} stays", (folder / name).read_bytes() == source.read_bytes(), words)
        for path in folder.iterdir():
            if path.name not in ("a.job", "b.job"):
                path.unlink()


CRATES = "base smoothing store job writing rows curves planner running pacing rates radio relay_c".split()
# Those that were proved before, of which rt says nothing; trial is one that the library doesn't need.
BEFORE = ("smoothing", "rows", "radio")
RT_SAYS = [line for name in [*CRATES[:-1], "trial", CRATES[-1]] if name not in BEFORE
           for line in (f"rt: chose --jobs 2 for {name}", f"fn {name}::first: proved", "logic=proved functions=1")]
SAID = [f"{k} of 13: {name} proved" for k, name in (
    (1, "base"), (2, "store"), (3, "job"), (4, "writing"), (7, "curves"), (8, "planner"), (9, "running"), (10, "pacing"), (11, "rates"),
    (13, "relay_c"))]
STARTED = "the library is proved and built first, which takes some minutes; "


class Copy:
    """The command in a folder with sources and no library. Its rt and its tools/install are scripts that a test writes."""

    def __init__(self, folder):
        self.folder, self.bin, self.log = folder / "copy", folder / "bin", folder / "log"
        self.target = self.folder / "target"
        self.mark, self.library = self.target / "magpierack-built", self.target / "magpierack/lib/librelay.so"
        shutil.copytree(ROOT / "tools", self.folder / "tools", ignore=shutil.ignore_patterns("__pycache__"))
        for name in ("magpierack", "crates.txt"):
            shutil.copy(ROOT / name, self.folder / name)
        for name in ("crates/base/src/a.rt", "crates/relay_c/src/lib.rt", "include/relay.h"):
            (self.folder / name).parent.mkdir(parents=True)
            (self.folder / name).write_text("a source\n")
        real = ROOT / "target/magpierack/lib/librelay.so"
        does = f'echo "install $*" >>"{self.log}"\nmkdir -p "$1/lib" && cp "{real}" "$1/lib"'
        write_executable(self.folder / "tools/install", f"#!/bin/sh\n{does}\n")
        self.bin.mkdir()
        for name in ("python3", "dirname", "readlink", "basename", "sh"):
            (self.bin / name).symlink_to(sys.executable if name == "python3" else shutil.which(name))
        shutil.copy(LISTING, folder / "a.job")
        self.answer = call("plan", "--lines", LISTING)[1]

    def write_rt(self, does=""):
        said = "".join(f"echo '{line}'\n" for line in RT_SAYS)
        head = f'PATH=/usr/bin:/bin\necho "rt $*" >>"{self.log}"\nmkdir -p out && echo "$PWD" >out/librelay_c.a\necho a line'
        write_executable(self.bin / "rt", f"#!/bin/sh\n{head}; {said}{does}\n")

    def words(self):
        return [self.folder / "magpierack", "plan", "--lines", "a.job"]

    def settings(self):
        own = f"{self.bin}:/usr/bin:/bin" if (self.bin / "rt").exists() else str(self.bin)
        return {"cwd": self.folder.parent, "env": {"PATH": own, "PYTHONDONTWRITEBYTECODE": "1"}}

    def expect(self, name, status, built, what="", **other):
        """Runs the command; built is whether rt was, what is the last line said."""
        self.log.write_text("")
        self.log.chmod(0o666)
        found = run(*self.words(), **{**self.settings(), **other})
        lines = found[2].splitlines()
        due = [f"magpierack: {STARTED}copy/target/magpierack.log has the log"] if built else []
        due += [f"magpierack: {line}" for line in SAID] if built else []
        right = found[:2] == (status, self.answer if status == 0 else b"") and lines[:len(due)] == due
        right = right and len(lines) == len(due) + bool(what) and (not what or what in lines[-1])
        right = right and self.log.read_text().count("rt lib\n") == bool(built)
        settle(f"building, {name}", right and "Traceback" not in found[2], (found, self.log.read_text()))

    def age(self):
        """Every source gets the time 1,000 and the mark of the last build 2,000."""
        for path in self.folder.rglob("*"):
            os.utime(path, (1_000, 1_000), follow_symlinks=False)
        os.utime(self.mark, (2_000, 2_000))


def test_building(folder):
    """The library is built where it is missing or older than a source; where it can't be, nothing is answered from an old one."""
    copy = Copy(folder)
    copy.expect("no rt", 2, False, "rt, Rattle's command, is not on the PATH")
    copy.write_rt("exit 3")
    failed = "the library could not be built: rt lib ended with"
    copy.expect("rt fails", 2, True, f"{failed} status 3; copy/target/magpierack.log says why")
    settle("building, the log of a failure", f"a line\n{RT_SAYS[0]}\n" in (copy.target / "magpierack.log").read_text())
    copy.write_rt("kill -9 $$")
    copy.expect("rt is killed", 2, True, "ended with signal 9")
    copy.write_rt()
    copy.expect("the first use", 0, True)
    archive = (copy.target / "staticlib/librelay_c.a").read_text()
    settle("building, the archive that rt made", archive == f"{copy.folder}/crates/relay_c\n", archive)
    copy.age()
    copy.expect("a later use", 0, False)
    os.utime(copy.folder / "crates/relay_c/out/librelay_c.a", (3_000, 3_000))
    copy.expect("what rt keeps is newer", 0, False)
    for name in ("crates.txt", "crates", "crates/base/src/a.rt", "include/relay.h", "tools/install", "tools/library.sh"):
        copy.age()
        os.utime(copy.folder / name, (3_000, 3_000))
        copy.expect(f"{name} is newer", 0, True)
    copy.age()
    os.utime(copy.folder / "tools/words.py", (3_000, 3_000))
    copy.expect("what is no source is newer", 0, False)
    os.utime(copy.folder / "crates/base/src/a.rt", (3_000, 3_000))
    copy.write_rt("exit 1")
    copy.expect("rt fails and there is an old library", 2, True, "ended with status 1")
    copy.expect("and once more", 2, True, "ended with status 1")
    (copy.bin / "rt").unlink()
    copy.expect("no rt and an old library", 2, False, "is not on the PATH")
    copy.write_rt()
    copy.expect("built again", 0, True)
    copy.library.unlink()
    copy.expect("no library", 0, True)
    copy.library.write_text("no library")
    copy.expect("a library that is none", 2, False, "can't be loaded")
    test_building_places(copy)


def test_building_places(copy):
    """Where nothing can be written; two at once."""
    copy.mark.unlink()
    if BOUND:
        for path in [copy.folder.parent, copy.folder, *copy.folder.rglob("*")]:
            path.chmod(0o755)
    copy.folder.parent.chmod(0o755)
    if run(copy.folder / "magpierack", "--help", **copy.settings(), **BOUND)[0] == 0:
        copy.target.chmod(0o555)
        copy.expect("an unwritable target", 2, False, f"must be built first, and {copy.target} can't be written", **BOUND)
        copy.target.chmod(0o755)
    else:
        print("a target that may not be written: LEFT OUT, as nobody can't run the command here")
    shutil.rmtree(copy.target)
    copy.target.write_text("no folder")
    copy.expect("a target that is no folder", 2, False, "can't be written")
    copy.target.unlink()
    copy.write_rt("sleep 1")
    copy.log.write_text("")
    first = subprocess.Popen(copy.words(), stdout=subprocess.PIPE, stderr=subprocess.PIPE, **copy.settings())
    while "rt " not in copy.log.read_text():
        time.sleep(0.01)
    second = run(*copy.words(), **copy.settings())
    out, said = first.communicate(timeout=60)
    settle("two at once, the first", (first.returncode, out) == (0, copy.answer) and said.count(b"\n") == 1 + len(SAID), said)
    waits = "magpierack: another command builds it; this one waits for that\n"
    settle("two at once, the second", second == (0, copy.answer, waits), second)
    settle("two at once, one build", copy.log.read_text() == "rt lib\ninstall target/magpierack\n", copy.log.read_text())


TESTS = [test_streams, test_closed, test_files, test_modes, test_long, test_stack, test_interrupts, test_garbage_files, test_garbage_words,
         test_building]
