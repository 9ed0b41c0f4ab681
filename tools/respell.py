#!/usr/bin/env python3
"""Respells the repository's own names and clauses as today's Rattle has them, where port.py left them.

usage: tools/respell.py          at the top of the repository, once, after port.py

Words are in snake case: definitions, lemmas, constructors and record fields; a fact or a type keeps its capital. Functions of src/, exported
C names, strings, inputs and outputs keep their names. Where a name in snake case was taken already in a file, the lemma that had it ends in
`_lem`. `result` now is what a function returns, so the definition of that name is `answer_and_buffers`, and a clause on the result is a plain
fact. Each crate's root file asks for tactics.
"""
import glob
import os
import re

NAME = re.compile(r"(?<![\w'₀-₉-])[a-z][\w'₀-₉-]*")

# the lemmas whose names fall together with a definition's, by file
TAKEN = {
    "crates/records/proofs/Records.antt": ["in_order"],
    "crates/rewriting/proofs/Rooms.antt": ["has_room", "no_room"],
    "crates/rewriting/proofs/Taken.antt": ["has_room"],
    "crates/expand/proofs/report/Reports.antt": ["no_words"],
    "crates/matching/proofs/Firsts.antt": ["built_in"],
}

RESULT = re.compile(r"Rattle\.evaluation\.specs\.Expansion\.\{[^}]*\bresult\b")


def snake(name):
    return re.sub(r"(?<=[a-z0-9])([A-Z])(?![A-Z])", lambda m: "_" + m.group(1).lower(), name.replace("getD", "get_or"))


def is_mixed(name):
    """Whether a part of the name between dashes starts small and has a capital within."""
    return any(re.match(r"[a-z0-9']+[A-Z]", part) for part in name.split("-"))


def respelled(name):
    return "-".join(snake(part) if re.match("[a-z]", part) else part for part in name.split("-"))


def strings_apart(text):
    """The stretches of text, those in double quotes marked."""
    return [(bool(i % 2), part) for i, part in enumerate(re.split(r'("(?:[^"\\\n]|\\.)*")', text))]


def clause_made_plain(match):
    name, binder, fact = match.groups()
    if binder != "_":
        fact = re.sub(r"(?<![\w.'«-])%s(?![\w'»-])" % binder, "result", fact)
    return "ensures%s { %s }" % (name, fact)


def turned(path, text):
    for name in TAKEN.get(path, []):
        text = re.sub(r"(?<![\w'-])%s(?![\w'-])" % name, name + "_lem", text)
    if RESULT.search(text) or path.endswith("evaluation/specs/Expansion.antt"):
        text = re.sub(r"(?<![\w.'-])result(?![\w'-])", "answer_and_buffers", text)
    if path.endswith((".rt", ".edit")):
        text = re.sub(r"ensures\*((?: \w+)?) \{ λ (\w+)\. ⌜ ([^⌝]*?) ⌝ \}", clause_made_plain, text)
        parts = strings_apart(text)
    else:
        parts = [(False, text)]
    return "".join(p if quoted else NAME.sub(lambda m: respelled(m.group(0)) if is_mixed(m.group(0)) else m.group(0), p) for quoted, p in parts)


def with_tactics(text):
    """The root file of a crate, with the line that has the check try its tactics, below the comment at its head."""
    lines = text.split("\n")
    n = 0
    while lines[n].startswith("//"):
        n += 1
    gap = [] if lines[n] == "" else [""]
    return "\n".join(lines[:n] + ["#![tactic(auto)]"] + gap + lines[n:])


def main():
    paths = glob.glob("crates/**/*.antt", recursive=True) + glob.glob("crates/**/*.rt", recursive=True) + glob.glob("crates/**/*.edit", recursive=True)
    if any("#![tactic(auto)]" in open(p, encoding="utf-8").read() for p in glob.glob("crates/*/src/lib.rt")):
        raise SystemExit("respell: this was done already")
    paths += ["README.md"] + glob.glob("docs/*.md")
    for path in sorted(paths):
        if "/out/" in path or os.path.islink(path):
            continue
        with open(path, encoding="utf-8") as f:
            text = f.read()
        new = turned(path, text)
        if re.fullmatch(r"crates/\w+/src/(lib|main)\.rt", path) and "#![tactic" not in text:
            new = with_tactics(new)
        if new != text:
            with open(path, "w", encoding="utf-8") as f:
                f.write(new)


main()
