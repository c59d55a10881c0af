"""What the tests of the tools share: jobs written here once more, and ./magpierack in a process of its own."""
import os
import pathlib
import shutil
import subprocess
import sys
import tempfile

sys.dont_write_bytecode = True
from tally import ROOT, settle  # noqa: E402

sys.path.insert(0, str(ROOT / "tools"))
import magpierack  # noqa: E402

magpierack.parser()  # Every command is loaded here, once, and not in each process.
MAGPIERACK, PROGRAM, STATIC_LIBRARY = ROOT / "magpierack", ROOT / "target/bin/relay", ROOT / "target/staticlib/librelay_c.a"
LISTING, FILM, SHORT = (ROOT / f"examples/{name}.job" for name in ("listing", "film", "short"))
GREATEST_AMOUNT, GREATEST_FRAME, LONGEST_DELAY = 17_592_186_044_415, 268_435_455, 4_096
NODE = "node 1 parent 0 delay 0 memory 4 rate 5"


def run(*words, stdin=b"", **other):
    """A command's status, what it printed, and what it said on standard error."""
    done = subprocess.run([str(word) for word in words], input=stdin, capture_output=True, **other)
    return done.returncode, done.stdout, done.stderr.decode(errors="replace")


def call(*words, stdin=b"", cwd=None, out=None, before=None):
    """./magpierack without the time that Python takes to start: its status, what it printed, and what it said on standard error without
    its name. out is a file to print to; before is called first in the process."""
    with tempfile.TemporaryFile() as given, tempfile.TemporaryFile() as printed, tempfile.TemporaryFile() as said:
        given.write(stdin)
        given.seek(0)
        child = os.fork()
        if child == 0:
            status = 99
            try:
                for file, stream in ((given, 0), (out or printed, 1), (said, 2)):
                    os.dup2(file.fileno(), stream)
                os.chdir(cwd or os.getcwd())
                if before:
                    before()
                status = magpierack.main([str(word) for word in words])
            finally:
                os._exit(status)
        status = os.waitstatus_to_exitcode(os.waitpid(child, 0)[1])
        for file in (printed, said):
            file.seek(0)
        lines = said.read().decode(errors="replace").splitlines(keepends=True)
        return status, printed.read(), "".join(line.removeprefix("magpierack: ") for line in lines)


def coded(records, frames, mark=b"RLY", version=1, nodes=None, count=None):
    """A job's bytes, written here once more; a record is (parent, delay, memory, rate)."""
    nodes = len(records) + 1 if nodes is None else nodes
    count = len(frames) if count is None else count
    out = mark + version.to_bytes(2, "big") + bytes([nodes]) + count.to_bytes(4, "big")
    for parent, delay, memory, rate in records:
        out += bytes([parent]) + delay.to_bytes(2, "big") + memory.to_bytes(8, "big") + rate.to_bytes(8, "big")
    return out + b"".join(size.to_bytes(4, "big") for size in frames)


def told(records, frames):
    """A job's text, written here once more."""
    lines = [f"node {i} parent {p} delay {d} memory {b} rate {r}" for i, (p, d, b, r) in enumerate(records, 1)]
    return "\n".join(lines + ["frames"] + [str(size) for size in frames] + [""])


def random_job(rng):
    """A small job that document 01 accepts. Memories are wide enough for a plan more often than not."""
    links = rng.randint(1, 9)
    parents = [rng.randrange(max(0, i - 3), i) for i in range(1, links + 1)]
    frames = [rng.choice((0, rng.randrange(10), rng.randrange(60))) for _ in range(rng.randint(1, 24))]
    spread = rng.choice((0, 0, 3))
    records = []
    for i, parent in enumerate(parents, 1):
        delay = 0 if i in parents else 2 + rng.randint(0, spread)
        records.append((parent, delay, rng.choice((rng.randrange(20), rng.randrange(40, 300))), rng.randrange(5, 80)))
    if rng.randrange(8) == 0:
        records[-1] = (*records[-1][:3], 0)
    return records, frames


def extreme_jobs():
    """Jobs at the bounds, all of them accepted."""
    most = (0, 4_096, GREATEST_AMOUNT, GREATEST_AMOUNT)
    yield "the smallest job", [(0, 0, 0, 0)], [0]
    yield "64 nodes, each field at its greatest", [most] * 63, [GREATEST_FRAME] * 3
    yield "a path of 64 nodes", [(i, 0, 5, 7) for i in range(63)], [9]
    yield "65,536 frames", [(0, 4_096, 0, GREATEST_AMOUNT)], [GREATEST_FRAME] * 65_536


def frames_of(bytes_):
    """The frames of a job that is accepted."""
    return [int.from_bytes(bytes_[at:at + 4], "big") for at in range(10 + 19 * (bytes_[5] - 1), len(bytes_), 4)]


def listed(folder):
    """The names in a folder, with the bytes of the regular files."""
    return {file.name: file.read_bytes() if file.is_file() else None for file in pathlib.Path(folder).iterdir()}


def output_folder(folder, name):
    """A new folder with a job, a text and a film of its own."""
    own = folder / name
    own.mkdir()
    shutil.copy(FILM, own / "a.job")
    (own / "a.txt").write_text(f"{NODE}\nfilm sizes\n")
    (own / "sizes").write_text("4\n10\n")
    return own


def expect_kept(name, folder, what, by, *words, **other):
    """A command that must fail and leave every file as it was, with one line that says what is wrong; it is done by run or by call."""
    before = listed(folder)
    status, out, said = by(*words, cwd=folder, **other)
    right = status == 2 and what in said and said.count("\n") == 1
    settle(name, right and not out and listed(folder) == before, (status, out[:99], said, listed(folder).keys() ^ before.keys()))
