#!/usr/bin/env python3
"""Spells the definitions and lemmas of crates/ as today's Rattle spells names: words in snake case.

usage: tools/respell.py [--check]        at the top of the repository, once, after the kit's port.py

    floorRate, low-starts, filledFrom-done, copy-row  ->  floor_rate, low_starts, filled_from_done, copy-row

A part in camel case is written with underscores. A dash stays where it joins two names of definitions, as in `copy-row`; a plain word is
joined by an underscore, as are the words of a record's field. A lemma that would have its definition's name gets `_lem`. Types and modules
keep their capitals. What the prover makes (a goal, a step, a step's field) keeps its name.
It stops where two names would fall together, and prints `look:` for a name that a file had before under the new spelling.
--check writes nothing.
"""

import glob
import re
import sys

TOKEN = re.compile(r"[^\W\d][\w'′]*(?:-[\w'′]+)*")
DECLARED = re.compile(r"^[ \t]*(?:(?:unfoldable|abbrev|pub|data|record) )*([^\W\d][\w'′]*(?:-[\w'′]+)*)(?= :|(?: ?\([^()]*\))+ :)", re.M)
CAMEL = re.compile(r"^[a-z][a-z0-9_]*[A-Z]")
IMPORT = re.compile(r"^(?:ghost |pub )?use ([\w.·]+)\.\{([^{}]*)\}", re.M)
OF_KIT = {"getD": "get_or"}


def without_comments(text):
    return re.sub(r"--[^\n]*", "", text)


def snake(part):
    if part in OF_KIT:
        return OF_KIT[part]
    if not CAMEL.match(part):
        return part
    return re.sub(r"(?<=[a-z0-9])([A-Z]+)", lambda m: "_" + m[1].lower(), part)


def fields_of(text):
    """The fields of the records that are declared here."""
    depth = None
    for line in text.split("\n"):
        indent = len(line) - len(line.lstrip())
        if depth is not None and (not line.strip() or indent <= depth):
            depth = None
        if re.match(r"\s*(?:pub )?record .* where$", line):
            depth = indent
        elif depth is not None and (m := re.match(r"\s*(?:pub )?([^\W\d][\w'′]*(?:-[\w'′]+)*) :", line)):
            yield m[1]


def respelled(name, names):
    """The new spelling of a declared name: a dash stays between two names."""
    if name[0].isupper() and "-" not in name:
        return name
    parts = [snake(p) for p in name.split("-")]
    out = parts[0]
    for before, part in zip(parts, parts[1:]):
        out += ("-" if before in names and part in names else "_") + part
    return out


def main(argv):
    specs = sorted(glob.glob("crates/*/specs/**/*.antt", recursive=True))
    proofs = sorted(glob.glob("crates/*/proofs/**/*.antt", recursive=True))
    sources = sorted(glob.glob("crates/*/src/**/*.rt", recursive=True))
    edits = sorted(glob.glob("crates/*/must-fail/*.edit"))
    text = {p: open(p, encoding="utf-8").read() for p in specs + proofs + sources + edits}
    answers = set()
    declared, defined, fields, kit = set(), set(), set(), set()
    for p in specs + proofs:
        bare = without_comments(text[p])
        for m in DECLARED.finditer(bare):
            if re.match(r"\S* ?:\s*(?:tie|goal)\.", bare[m.start(1):m.start(1) + 200].split("\n")[0][len(m[1]):].strip().join(["x ", ""])):
                answers.add(m[1])
                continue
            declared.add(m[1])
            if p in specs:
                defined.add(m[1])
        fields |= set(fields_of(bare))
        for m in IMPORT.finditer(bare):
            if not m[1].startswith("Rattle.") or m[1].startswith("Rattle.std"):
                kit |= {w.strip() for w in m[2].split(",")}
    names = {snake(n) for n in defined if "-" not in n} | {n for n in kit if "-" not in n}
    camel = {w for p in specs + proofs for w in TOKEN.findall(without_comments(text[p])) if CAMEL.match(w) and "-" not in w}
    table = {}
    for n in sorted((declared | camel) - kit):
        new = respelled(n, names)
        words = "_".join(snake(p) for p in n.split("-"))
        if n in fields and words not in declared and words not in names:
            new = words
        if new != n:
            table[n] = new
    by_new = {}
    for old, new in table.items():
        by_new.setdefault(new, set()).add(old)
    for new, olds in list(by_new.items()):
        for old in sorted(olds) if len(olds) > 1 or new in declared else []:
            if "-" in old:  # a lemma with its definition's name
                table[old] = new + "_lem"
                by_new.setdefault(table[old], set()).add(old)
                olds.discard(old)
        if new in declared - defined and olds:  # the same, where port.py spelled the lemma
            table[new] = new + "_lem"
            declared.discard(new)
    by_new = {new: olds for new, olds in by_new.items() if olds}
    bad = {new: olds for new, olds in by_new.items() if len(olds) > 1 or new in declared}
    for new, olds in sorted(bad.items()):
        print(f"fall together: {new}: {sorted(olds)}{' and itself' if new in declared else ''}")
    if bad:
        return 1
    changed = 0
    for p, t in text.items():
        walked = p.endswith("/Proof.antt")
        source = p.endswith((".rt", ".edit"))
        for w in set(TOKEN.findall(without_comments(t))) & set(by_new):
            if w not in declared:
                print(f"look: {p}: {w} stood here before, and {sorted(by_new[w])} is spelled so now")

        def turn(m):
            w = m[0]
            if w not in table:
                return w
            if source and "-" in w and w not in fields and m.start() and t[m.start() - 1] not in ".{ (,":
                return w
            if walked and t[m.start() - 1:m.start()] == "." and w not in fields:
                path = re.search(r"[\w.]*$", t[:m.start()])[0]
                if not path.startswith("Rattle."):
                    return w
            return table[w]

        new = TOKEN.sub(turn, t)
        if new != t:
            changed += 1
            if "--check" not in argv:
                open(p, "w", encoding="utf-8").write(new)
    print(f"{len(table)} names, {changed} files")
    return 0


if __name__ == "__main__":
    raise SystemExit(main(sys.argv[1:]))
