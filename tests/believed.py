"""Plants faults that tools/believed has to find: each in a copy of the sources, one at a time. What the tool says of the sources as they are
is not counted; a planted fault has to end it with 1 and a line more, and that line has to name the fault. One plant is right, and has to pass.

    python3 tests/believed.py      from the repository's top; some seconds
"""
import os
import re
import shutil
import subprocess
import sys
import tempfile

EVALUATION, OUTCOMES = "crates/rewriting/specs/Evaluation.antt", "crates/rewriting/specs/Outcomes.antt"
OPERATIONS, EXPANDER = "crates/replay/proofs/Operations.antt", "crates/evaluation/src/lib.rt"
GAP, EXPORTS, PROVED = "crates/rows/src/gap.rt", "crates/cue_c/src/lib.rt", "docs/PROVED.md"
# an inner definition, planted with what rests on it
INNER = ("crates/rewriting/specs/levels/Planted.antt", None, "abbrev pub planted : ℕ\nplanted = 0\n")
HOME, TOLD = "Rattle.rewriting.specs.levels.Planted", "levels/Planted.antt: planted is inner"
FREE = "pub fn planted(book: &[u16]) -> Answer\n    ensures { result ≡ result }\n{\n    read(book)\n}\n"
REPLAYED = r"^  x = replaying "


def first(path, line):
    """A line before the first import of a file."""
    return (path, r"^(?=(?:ghost )?use )", line + "\n")


def clause(text):
    """A clause more in the contract of an inner function, which PROVED names."""
    return [(GAP, r"(pub fn move_gap\(.*?\n)(?=    ensures)", r"\1    ensures planted { " + text + " }\n"), named("`rows::gap::move_gap` (`planted`)")]


def asks(path, function):
    return (path, rf'(^pub (?:extern "C" )?fn {function}\(.*?\n)(?=    ensures)', r"\1    requires { planted }\n")


def named(text):
    return (PROVED, None, f"\nPlanted: {text}\n")


# what is planted; the edits, each a file, a pattern in it and what stands there then (no pattern: at the file's end); what has to be told of it
# (nothing: it is right)
PLANTS = [
    (
        "a theorem whose private abbreviation rests on an inner definition",
        [INNER, first(OPERATIONS, f"use {HOME}.{{planted}}"), (OPERATIONS, REPLAYED, "  x = planted replaying ")],
        TOLD,
    ),
    (
        "the same by two abbreviations, the second by a name with its module before it",
        [
            INNER,
            first(OPERATIONS, f"use {HOME} as far"),
            (OPERATIONS, REPLAYED, "  x = deeper replaying "),
            (OPERATIONS, r"^(?=  abbrev x :)", "  abbrev deeper : List ℕ → Expansion\n  deeper b = far.planted b\n\n"),
        ],
        TOLD,
    ),
    ("a theorem whose abbreviation names an inner definition by its path", [INNER, (OPERATIONS, REPLAYED, f"  x = {HOME}.planted replaying ")], TOLD),
    (
        "a theorem whose module has an inner definition, under another name, among its parameters",
        [
            INNER,
            first(OPERATIONS, f"use {HOME}.{{planted as lift}}"),
            (OPERATIONS, r"^module _ \(book term words out work : List ℕ\)", "module _ (book term words out work : List ℕ) (k : lift)"),
        ],
        TOLD,
    ),
    (
        "a definition that rests on an inner one, which its own file passes on",
        [INNER, first(EVALUATION, f"pub use {HOME}.{{planted}}"), (EVALUATION, r"^start t = ", "start t = planted ")],
        TOLD,
    ),
    (
        "a definition that rests on an inner one, which another file passes on",
        [
            INNER,
            first(EVALUATION, f"pub use {HOME}.{{planted}}"),
            first(OUTCOMES, "use Rattle.rewriting.specs.Evaluation.{planted}"),
            (OUTCOMES, r"^  pub none : ", "  pub none : planted "),
        ],
        TOLD,
    ),
    (
        "a module under another name at the top of specs/",
        [first(OUTCOMES, "use Rattle.system.specs.Signature as signs")],
        f"{OUTCOMES}: 'use Rattle.system.specs.Signature as signs' at the top of specs/",
    ),
    (
        "a name under another at the top of specs/",
        [(OUTCOMES, r"specs\.Limits\.\{term_words\}", "specs.Limits.{term_words as most}")],
        "term_words as most}' at the top of specs/",
    ),
    ("everything of a module at once", [first("crates/rewriting/specs/Rewriting.antt", "pub use Lengths.*")], "'pub use Lengths.*' is not followed"),
    (
        "a name that is not where it is said to come from",
        [(OUTCOMES, r"specs\.Limits\.\{term_words\}", "specs.Terms.{term_words}")],
        "term_words, which",
    ),
    (
        "a contract that rests on an inner definition",
        [INNER, first(EXPANDER, f"ghost use {HOME}.{{planted}};"), (EXPANDER, r"\{ answer_and_buffers result", "{ planted answer_and_buffers result")],
        TOLD,
    ),
    ("a public operation that asks something of its caller", [asks(EXPANDER, "expand")], "evaluation::expand is public, and has a requires"),
    ("a function exported to C that asks something of its caller", [asks(EXPORTS, "cue_read")], "cue_c::cue_read is public, and has a requires"),
    ("a public operation that PROVED does not name", [(EXPANDER, None, FREE)], "evaluation::planted is public, and PROVED does not name it"),
    (
        "a crate that exports to C, and that PROVED does not name",
        [("crates/terms/src/checking.rt", None, "#[unsafe(no_mangle)]\n" + FREE)],
        "crates/terms exports functions to C",
    ),
    ("a function that is not there, in PROVED", [named("`evaluation::expend`")], "PROVED names evaluation::expend, which is not there"),
    (
        "a theorem that is not there, in PROVED",
        [named("`demands/proofs/Demand3.antt`: `is-done`, `found`")],
        "PROVED names the theorem found, which is not in",
    ),
    ("a file that is not there, in PROVED", [named("`demands/specs/Demand4.antt`")], "demands/specs/Demand4.antt, which is not there"),
    ("an inner function as a whole, in PROVED", [named("`rows::gap::move_gap`")], "rows::gap::move_gap is public, and has a requires"),
    (
        "an inner clause that is not there, in PROVED",
        [named("`rows::gap::move_gap` (`planted`)")],
        "PROVED names rows::gap::move_gap (`planted`), which has no such clause",
    ),
    ("an inner clause that rests on an inner definition", [INNER, first(GAP, f"ghost use {HOME}.{{planted}};"), *clause("planted result")], TOLD),
    (
        "an inner clause that rests on what is believed alone",
        [first(GAP, "ghost use Rattle.rewriting.specs.Outcomes.{Stable};"), *clause("Stable result")],
        None,
    ),
    ("a definition at the top of specs/ on which nothing rests", [(OUTCOMES, None, "\nabbrev idle : ℕ\nidle = 0\n")], f"{OUTCOMES}: idle stands at the top"),
    (
        "a definition that rests on a computed case",
        [first(EVALUATION, "use Rattle.reader.specs.Cases.{reader_cases}"), (EVALUATION, r"^start t = ", "start t = reader_cases ")],
        "start rests on reader_cases, a computed case",
    ),
    ("other figures in README", [("README.md", r"^( *believed: the expander .*: )(?=\d)", r"\g<1>1")], "README does not say"),
]


def wrong(folder):
    """How the tool ends there, and what it says is wrong."""
    run = subprocess.run([os.path.join(folder, "tools/believed")], cwd=folder, capture_output=True, text=True)
    told = [line.removeprefix("believed: WRONG: ") for line in run.stdout.split("\n") if line.startswith("believed: WRONG: ")]
    return run.returncode, told, run.stderr


def plant(folder, edits):
    """Makes the edits, and hands back the files as they were (nothing of a new one)."""
    old = {}
    for path, pattern, text in edits:
        at = os.path.join(folder, path)
        now = open(at, encoding="utf-8").read() if os.path.exists(at) else None
        old.setdefault(at, now)
        then, times = ((now or "") + text, 1) if pattern is None else re.subn(pattern, text, now, count=1, flags=re.M | re.S)
        if times == 0:
            sys.exit(f"believed: FAILED: {path} has no '{pattern}' to plant at")
        with open(at, "w", encoding="utf-8") as f:
            f.write(then)
    return old


def restore(old):
    for at, text in old.items():
        if text is None:
            os.remove(at)
        else:
            with open(at, "w", encoding="utf-8") as f:
                f.write(text)


def main():
    failed = 0
    with tempfile.TemporaryDirectory() as folder:
        for path in ("crates", "docs", "tools"):
            shutil.copytree(path, os.path.join(folder, path), ignore=shutil.ignore_patterns("must-fail", "data", "out"))
        shutil.copy("README.md", folder)
        _, already, _ = wrong(folder)
        for what, edits, due in PLANTS:
            old = plant(folder, edits)
            status, told, crash = wrong(folder)
            # the figures move with what is planted
            more = [line for line in told if line not in already and (what.endswith("README") or not line.startswith("README"))]
            good = not more if due is None else status == 1 and any(due in line for line in more)
            if not good or crash:
                failed += 1
                print(f"believed: FAILED: {what}: " + ("is right, but" if due is None else f"'{due}' is not") + " told:", *more, crash, sep="\n    ")
            restore(old)
    if failed:
        sys.exit(1)
    print(f"believed: {sum(due is not None for _, _, due in PLANTS)} planted faults were found, and what is right passed")


main()
