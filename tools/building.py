"""Proves and builds what a command needs, where it is missing or older than its sources. ./relay and ./magpierack share this."""
import contextlib
import fcntl
import os
import re
import shlex
import shutil
import subprocess
from dataclasses import dataclass

from files import Problem, reason

ROOT = os.path.dirname(os.path.dirname(os.path.realpath(__file__)))
TARGET, CRATES = os.path.join(ROOT, "target"), os.path.join(ROOT, "crates")
# What rt says as it begins a crate, and as it has proved it. Of a crate that was built before it says nothing.
BEGUN, PROVED = re.compile(r"rt: chose --jobs \d+ for (\w+)"), "logic=proved "


@contextlib.contextmanager
def told(what):
    """Whatever fails within is a problem, told in these words and with the reason."""
    try:
        yield
    except OSError as error:
        raise Problem(f"{what}: {reason(error)}") from None
    except subprocess.CalledProcessError as error:
        raise Problem(f"{what}: {ended(error.cmd, error.returncode)}") from None


def ended(words, status):
    return f"{shlex.join(words)} ended with {f'status {status}' if status > 0 else f'signal {-status}'}"


def near(path):
    """A file of the repository as it is named from the current folder."""
    path = os.path.join(ROOT, path)
    with contextlib.suppress(OSError):  # The current folder may be gone.
        path = min(os.path.relpath(path), path, key=len)
    return path


def typed(*words):
    """./magpierack with words, as it is typed in the current folder."""
    path = near("magpierack")
    return f"'{shlex.join((path if '/' in path else f'./{path}', *words))}'"


def out_of(crate):
    """Where rt keeps what it made of a crate."""
    return os.path.join(CRATES, crate, "out")


def below(source):
    """All files and folders below a source, but for what rt keeps in the crates' out/."""
    for at, folders, files in os.walk(source):
        if os.path.dirname(at) == CRATES and "out" in folders:
            folders.remove("out")
        yield from (os.path.join(at, name) for name in folders + files)


@dataclass(frozen=True)
class Built:
    """What rt builds of a crate: its command, which is given in the crate's folder, the file that this leaves in the crate's out/, and
    the place below target/ that the file is put in."""
    crate: str
    command: str
    made: str
    place: str

    def put(self):
        """Puts the file in its place; where rt made none there is none. Who runs or has loaded an older one keeps that."""
        place = os.path.join(TARGET, self.place)
        os.makedirs(os.path.dirname(place), exist_ok=True)
        with contextlib.suppress(FileNotFoundError):
            os.unlink(place)
        with contextlib.suppress(FileNotFoundError):
            shutil.copy(os.path.join(out_of(self.crate), self.made), place)


class Product:
    """Something that is built: what it is called, its sources, what rt builds, and what is then made of that, if anything, a file below
    target/ and the words of a command. target/NAME-built is the mark of the last build: a source that is newer has not been looked at.
    target/NAME.log has what the commands of that build said."""

    def __init__(self, name, what, sources, built, file=None, words=None):
        self.what, self.built, self.words = what, built, words
        self.file, self.mark, self.log = (os.path.join(TARGET, part) for part in (file or built.place, f"{name}-built", f"{name}.log"))
        self.sources = [os.path.join(ROOT, source) for source in sources]

    def is_current(self):
        """Whether the file is there, and no file or folder of its sources is newer than the mark."""
        inner = [path for source in self.sources for path in below(source)]
        with contextlib.suppress(OSError):
            built = os.stat(self.mark).st_mtime_ns
            return os.path.exists(self.file) and all(os.lstat(path).st_mtime_ns <= built for path in self.sources + inner)
        return False

    def make(self, say):
        """Builds it where it must; say gets a line for each crate. Of two that build at once the second waits for the first."""
        if self.is_current():
            return self.file
        folder = TARGET if os.path.lexists(TARGET) else ROOT
        with told(f"{self.what} must be built first, and {folder} can't be written"):
            if folder == ROOT:
                os.mkdir(TARGET)
            lock = open(f"{self.log}.lock", "wb")
        with lock, told(f"{self.what} could not be built"):
            try:
                fcntl.flock(lock, fcntl.LOCK_EX | fcntl.LOCK_NB)
            except OSError:
                say("another command builds it; this one waits for that")
                fcntl.flock(lock, fcntl.LOCK_EX)
            if not self.is_current():
                self.build(say)
        return self.file

    def build(self, say):
        """The mark gets the time of the beginning, so that a source which changes meanwhile is newer."""
        if not any(os.access(os.path.join(folder, "rt"), os.X_OK) for folder in os.get_exec_path()):
            raise Problem(f"{self.what} must be built first, and rt, Rattle's command, is not on the PATH")
        with contextlib.suppress(FileNotFoundError):
            os.unlink(self.mark)
        for crate in os.listdir(CRATES):  # rt makes them where they are missing, which makes the crates' folders newer.
            with contextlib.suppress(OSError):
                os.mkdir(out_of(crate))
        with open(self.log, "wb") as log:
            began = os.fstat(log.fileno()).st_mtime_ns
            say(f"{self.what} is proved and built first, which takes some minutes; {near(self.log)} has the log")
            self.follow(["rt", self.built.command], os.path.dirname(out_of(self.built.crate)), log, say)
            self.built.put()
            if self.words:
                self.follow(self.words, ROOT, log, say)
        open(self.mark, "wb").close()
        os.utime(self.mark, ns=(began, began))

    def follow(self, words, folder, log, say):
        """Runs a command of the build in a folder; its output goes to the log, and each crate that it proves is said."""
        progress = Progress(self.built.crate, say)
        with subprocess.Popen(words, cwd=folder, stdin=subprocess.DEVNULL, stdout=subprocess.PIPE, stderr=subprocess.STDOUT) as child:
            try:
                for line in child.stdout:
                    log.write(line)
                    log.flush()
                    progress.hear(line.decode(errors="replace"))
            except BaseException:  # An interrupt, which the command may not have got.
                child.terminate()
                raise
        if child.returncode:
            raise Problem(f"{self.what} could not be built: {ended(words, child.returncode)}; {near(self.log)} says why")


class Progress:
    """How many of the crates that a crate needs are proved, as rt's lines tell it: of those that were built before it says nothing, but
    it builds each after those that it uses."""

    def __init__(self, crate, say):
        self.needed, self.say, self.begun, self.done = needed(crate), say, None, set()

    def hear(self, line):
        found = BEGUN.match(line)
        if found:
            self.begun = found[1]
        elif line.startswith(PROVED) and self.begun in self.needed:
            self.done |= needed(self.begun)
            self.say(f"{len(self.done)} of {len(self.needed)}: {self.begun} proved")
            self.begun = None


def needed(crate):
    """A crate and all that it uses, by crates.txt."""
    with open(os.path.join(ROOT, "crates.txt")) as file:
        lines = [line.partition(":")[::2] for line in file if not line.startswith("#")]
    uses = {words.split()[0]: below for words, below in lines if words.strip()}
    found, rest = set(), [crate]
    while rest:
        name = rest.pop()
        if name in uses and name not in found:
            found.add(name)
            rest += uses[name].split()
    return found
