#!/usr/bin/env python3
"""After rt ci tried the must-fail edits: every one was refused by a fact.

A refusal shows nothing where the edited line itself is wrong (a text that is not there, a name that is not in scope, a type that doesn't
fit) or where the proof file has no place for the edited code, and rt ci passes all the same. Such an edit is named, with what rt says of
it, and the status is 1. So it is where rt's line 'rt: ok' doesn't count every edit as refused, and none as bad.

Usage: edits.py FILE [FOLDER]; FILE has rt ci's output, FOLDER is the repository's, by default the one that the command is given in."""
import pathlib
import re
import sys

REFUSED = "^refused, as it must be"
# What rt says where no fact was at stake. An error in src/ or specs/, which an edit changes, is one of a name or a type there: that a fact
# is missing is told by an error in proofs/ or by a note.
WORTHLESS = [
    (re.compile(r"^BAD EDIT: .*is not in scope"), "a name is not in scope"),
    (re.compile(r"^BAD EDIT: "), "it can't be tried"),
    (re.compile(REFUSED + r" \(only because a proof file names"), "a proof file has no place for the edited code"),
    (re.compile(REFUSED + r" \(only by a limit"), "the prover stopped at a limit"),
    (re.compile(REFUSED + r": note: [^;]*; `search` gave up at one of its limits"), "the prover stopped at a limit"),
    (re.compile(REFUSED + r": (?:\./)?(?:src|specs)/[^\s:]*:\d+:\d+: error"), "the edited file itself is refused"),
]
BY_A_FACT = re.compile(REFUSED + r": (?:(?:\./)?proofs/[^\s:]*:\d+:\d+: error|note: [^:]+:\d+:\d+: it is not proved)")
# Whatever rt tells of an edit, at most six lines of what was said to it below its own.
LINES = r"^rt: must-fail {}: (.*(?:\n(?!rt: ).*){{0,6}})"
COUNT = re.compile(r"^rt: ok; .*; must-fail edits: (\d+) refused(?:, \d+ of them only by a limit)?(?:, (\d+) bad)?; ", re.M)


def fault(said):
    """Why what rt tells of an edit shows nothing; None where a fact refused it."""
    for pattern, reason in WORTHLESS:
        if pattern.search(said):
            return f"{reason}: {said[:300]}"
    return None if BY_A_FACT.search(said) else f"nothing is told of a fact: {said[:300]}"


def main():
    text = pathlib.Path(sys.argv[1]).read_text(errors="replace")
    edits = sorted(pathlib.Path(sys.argv[2] if len(sys.argv) > 2 else ".").glob("crates/*/must-fail/*.edit"))
    wrong = 0
    for edit in edits:
        crate = edit.parts[-3]
        told = re.findall(LINES.format(re.escape(f"{crate}/{edit.name}")), text, re.M)
        why = fault(" ".join(told[0].split()) if len(told) == 1 else "")
        if why:
            wrong += 1
            print(f"{crate}/{edit.stem}: {why}")
    counts = [tuple(int(number or 0) for number in found) for found in COUNT.findall(text)]
    if edits and counts != [(len(edits), 0)]:
        print(f"edits: not one line 'rt: ok' that counts {len(edits)} refused and 0 bad: {counts}")
        wrong = max(wrong, 1)
    print(f"edits: {len(edits)} looked at, {wrong} refused by something other than a fact")
    return 1 if wrong else 0


if __name__ == "__main__":
    sys.exit(main())
