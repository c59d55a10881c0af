"""What the tests in Python share: each thing that is tested is settled once, and the last line says how many passed."""
import concurrent.futures
import functools
import multiprocessing
import os
import pathlib
import subprocess
import sys

ROOT = pathlib.Path(__file__).resolve().parent.parent
# A process that meets the modes of files: where the tests are root's, one of nobody's.
BOUND = {"user": 65_534, "group": 65_534, "extra_groups": []} if os.geteuid() == 0 else {}
counts = {"passed": 0, "failed": 0}


def settle(name, right, said=None):
    """Counts a test; of one that failed it prints the name and what was said."""
    counts["passed" if right else "failed"] += 1
    if not right:
        print(f"failed: {name}: {repr(said)[:400]}")


def run(*words, **other):
    """A command's status, what it printed, and what it said on standard error."""
    done = subprocess.run([str(word) for word in words], capture_output=True, text=True, **other)
    return done.returncode, done.stdout, done.stderr


def write_executable(path, text):
    path.parent.mkdir(parents=True, exist_ok=True)
    path.write_text(text)
    path.chmod(0o755)


def counted(test, case):
    """Runs a test on a case, and gives what was counted."""
    counts.update(passed=0, failed=0)
    test(case)
    sys.stdout.flush()
    return dict(counts)


def side_by_side(test, cases):
    """Runs a test on each case, in processes of their own and two at a time, and adds up what they counted."""
    with concurrent.futures.ProcessPoolExecutor(2, multiprocessing.get_context("fork")) as pool:
        for found in pool.map(functools.partial(counted, test), cases):
            for key in counts:
                counts[key] += found[key]


def report():
    """Prints the last line, and gives the status to end with."""
    print(f"{counts['passed']} passed, {counts['failed']} failed")
    return 1 if counts["failed"] else 0
