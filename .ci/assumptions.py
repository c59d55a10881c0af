#!/usr/bin/env python3
"""After rt ci: every listed crate was proved; no library reports a foreign function or an assumption, and a program only those of the
kit's C library; no handle is allowed, nothing is declared without a proof, and no exported function asks anything of its caller.

Usage: assumptions.py FILE; FILE has rt ci's output. That has a crate's verdict where this run proved it. Of a crate that an earlier run
had proved rt ci says only that; its last line then comes from rt check, which begins with what the building of the library kept."""
import pathlib
import re
import subprocess
import sys

# What a last line may trust. One of rt check also trusts what was kept: the verdict is rt ci's.
TRUSTED = {"logic-built", "libraries-built", "statements"}
# Whose assumptions a program may reach: what the kit declares of the C library.
KIT_C = {"libc", "os"}


def proved_now(text, name):
    """What rt ci printed of a crate that it proved in this run."""
    return re.findall(rf"^== {name}\n(.*?)^rt: {name} proved$", text, re.M | re.S)


def proved_before(text, name):
    """What rt check says of a crate that rt ci had proved before, without what it says of libraries below that it builds; None where rt ci
    doesn't say so."""
    if len(re.findall(rf"^rt: {name} is kept: an earlier run", text, re.M)) != 1:
        return None
    ran = subprocess.run(["rt", "check"], cwd=f"crates/{name}", stdin=subprocess.DEVNULL, stdout=subprocess.PIPE, text=True)
    return ran.stdout.rpartition(f" for {name}\n")[2]


def faults(name, text):
    """What is wrong with a crate, by rt ci's output."""
    said, trusted = proved_now(text, name), TRUSTED
    if not said:
        said, trusted = [proved_before(text, name)], TRUSTED | {"incremental"}
    if len(said) != 1 or said[0] is None:
        return ["rt ci does not say once that it is proved"]
    verdicts = re.findall(r"^logic=.*$", said[0], re.M)
    if len(verdicts) != 1 or not verdicts[0].startswith("logic=proved "):
        return [f"not one verdict 'logic=proved': {verdicts}"]
    words = dict(word.partition("=")[::2] for word in verdicts[0].split())
    holders = {holder for holder, told in re.findall(r"^axioms (\w+): (.*)$", said[0], re.M) if not told.startswith("none reached")}
    library = pathlib.Path("crates", name, "src/lib.rt").exists()
    wrong = []
    if {word for word, value in words.items() if value == "trusted"} - trusted:
        wrong.append(f"a working result and no verdict: {verdicts[0]}")
    if words.get("foreign", "0") != "0":
        wrong.append(f"foreign functions: {words['foreign']}")
    if library and (words.get("axioms", "0") != "0" or holders):
        wrong.append(f"a library with assumptions: {words.get('axioms')} of {sorted(holders)}")
    if holders - KIT_C:
        wrong.append(f"assumptions of {sorted(holders)}, not of the C library alone")
    if words.get("axioms", "0") != "0" and not holders:
        wrong.append("assumptions, and rt does not say whose")
    return wrong


def unproved():
    """What the sources declare without a proof, and what exported functions ask of their callers."""
    wrong = []
    for source in sorted(pathlib.Path("crates").glob("*/src/**/*.rt")):
        text = source.read_text()
        if re.search(r'\bextern\s*(?:"[^"]*"\s*)?\{', text):
            wrong.append(f"{source}: foreign functions are declared")
        for name, function in re.findall(r'extern "C" fn (\w+)(.*?)^\}', text, re.M | re.S):
            if re.search(r"^\s*requires\b", function, re.M):
                wrong.append(f"{source}: {name} is exported and has a requires")
    for source in sorted(pathlib.Path("crates").glob("*/*/**/*.antt")):
        if re.search(r"^\s*axiom\b|\bPrim\.Axiom\b", source.read_text(), re.M):
            wrong.append(f"{source}: an axiom")
    return wrong


def main():
    text = pathlib.Path(sys.argv[1]).read_text(errors="replace")
    lines = (line.split("#")[0].split(":")[0].split() for line in pathlib.Path("crates.txt").read_text().splitlines())
    names = [words[0] for words in lines if words]
    wrong = [f"{name}: {fault}" for name in names for fault in faults(name, text)] + unproved()
    if len(re.findall(r"^rt: ok; handles allowed: none;", text, re.M)) != 1:
        wrong.append("rt ci does not say once that no handle is allowed")
    for line in wrong:
        print(line)
    print(f"assumptions: {len(names)} crates looked at, {len(wrong)} wrong")
    return 1 if wrong else 0


if __name__ == "__main__":
    sys.exit(main())
