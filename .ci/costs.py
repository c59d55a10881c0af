#!/usr/bin/env python3
"""What the gate cost, as a table: each crate's proof and edits, from what rt ci printed, and the other parts.

Usage: costs.py FILE PART=SECONDS .. ; FILE has rt ci's lines, each after the seconds that rt ci had then run, PART 'whole' comes last.
Seconds are those of the clock. rt ci doesn't tell what a crate's proof took, and works at several crates at a time, so that what stands
here is when a crate was proved, and its tests, where it has any. 'kept' is what an earlier run had proved, and 'tried' how many of the
edits were tried in this run."""
import re
import sys

text = open(sys.argv[1], encoding="utf-8", errors="replace").read()


def times(pattern):
    """When rt ci said this of each crate."""
    return {name: took for took, name in re.findall(rf"^(\d+) rt: (\w+){pattern}", text, re.M)}


proofs = {**times(r" proved$"), **dict.fromkeys(times(" is kept: "), "kept")}
tests = times(": its tests are proved$")
tried = {name: int(count) for name, count in re.findall(r"^\d+ rt: (\w+): trying its must-fail edits \((\d+)\)$", text, re.M)}
edits = re.findall(r"^\d+ rt: must-fail (\w+)/", text, re.M)
order = [line.split("#")[0].split(":")[0].split() for line in open("crates.txt")]

print(f"{'':12}{'proved at, s':>14}{'tests at, s':>14}{'edits':>8}{'tried':>8}")
for crate in [words[0] for words in order if words]:
    print(f"{crate:12}{proofs.get(crate, '-'):>14}{tests.get(crate, ''):>14}{edits.count(crate):>8}{tried.get(crate, 0):>8}")
last = max((int(took) for took in [*proofs.values(), *tests.values()] if took != "kept"), default="kept")
print(f"{'all crates':12}{last:>14}{'':>14}{len(edits):>8}{sum(tried.values()):>8}")
for part in sys.argv[2:]:
    name, seconds = part.split("=")
    print(f"{name:12}{int(seconds):>14}")
