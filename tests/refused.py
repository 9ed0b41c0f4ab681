"""Holds every must-fail edit to be refused because a fact fails. Where rt says of an edit only that a file of proofs no longer fits the code's shape
(a goal, a step or a field of it that is not there, or another step than the one that is due), or that the prover came to a limit of its own, nothing
shows what the edit rules out.

    python3 tests/refused.py            from the repository's top, after .ci/run or `rt ci > target/ci.log 2>&1`: reads target/ci.log
    python3 tests/refused.py FILE       the same of what `rt must-fail` printed into another file, for as many edits as it tells of

Of each edit rt prints the first thing that the check found, passing over names that the edit took away. The lines below are told apart first; nothing
else is read where one of them is told wrongly.
"""
import glob
import os
import re
import sys

LINE = re.compile(r"^rt: must-fail (\w+)/(\S+)\.edit: (.*)$", re.M)
REFUSED = re.compile(r"refused, as it must be: (.*)")
# A goal that the check leaves open. Where the function has answers, the edit may only have given an answered goal another name: then it is a fact
# that fails if the check found values at which the goal is false (rt cuts what it prints, at times within those words).
OPEN = re.compile(r"note: src/(\S+)\.rt:(\d+):\d+: it is not proved that ")
FALSE = re.compile(r"the facts known there a")
# an answer that is no proof of its goal
UNPROVED = re.compile(r"does not follow from what it read|`search`: no proof of `|give a proof of that as the last argument")
DIFFERS = re.compile(r"the two (?:types|values|sides) (?:first differ|differ only|are|agree until) |expected type `|on the face `[^`]*` this λ's body is `")
# a goal, a step or a field that the edited code does not have
GONE = re.compile(r"has no `[^`]*` that can be named from here|has no field `|is not in scope")
# a type's head that was made of the code's shape
SHAPE = r"(?:tie|lts|goal|(?:\S+\.)?(?:Lts|Tie|Goals|View))\S*\.[A-Z]"
MISFIT = re.compile(rf"(?:expected type|this has type|where one has|the other has) `\(*{SHAPE}")


def has_answers(crate, module, line):
    """Whether the function that has this line of a crate's source has a file of answers."""
    with open(f"crates/{crate}/src/{module}.rt", encoding="utf-8") as f:
        lines = f.read().split("\n")
    while lines[line - 1].startswith("#["):
        line += 1
    heads = [re.match(r'\s*(?:pub(?:\(crate\))? )?(?:extern "C" )?fn (\w+)', text) for text in lines[:line]]
    name = [head[1] for head in heads if head][-1]
    above = "" if module in ("lib", "main") else module + "/"
    # a method's folder stands in that of its type
    places = [f"crates/{crate}/proofs/{above}{type}{folder}/Answers.antt" for type in ("", "*/") for folder in (name, "+" + name)]
    return any(glob.glob(place) for place in places)


def is_fact(crate, told):
    """Whether what rt tells of an edit of the crate is a fact that fails."""
    m = REFUSED.match(told)
    said = m[1] if m else ""
    left = OPEN.match(said)
    if left:
        return bool(FALSE.search(said)) or not has_answers(crate, left[1], int(left[2]))
    return bool(UNPROVED.search(said) or DIFFERS.search(said) and not GONE.search(said) and not MISFIT.search(said))


# lines made up by hand, after real ones, each with whether a fact fails in it: of `rows`, whose `slot` has answers and whose `move_gap` has none
AT = "refused, as it must be: ./proofs/run/run/Answers.antt:200:24: error: "
MADE_UP = [
    ("refused, as it must be: note: src/gap.rt:27:1: it is not proved that what the function ensures holds when it returns (`returns`); `search` gave up", False),
    ("refused, as it must be: note: src/gap.rt:27:1: it is not proved that what the function ensures holds when it returns (`returns`); the facts known there all", True),
    ("refused, as it must be: note: src/gap.rt:81:1: it is not proved that what `move_on` requires holds at this call (`move_on-requires`)", True),
    (AT + "`loop-i-preserved`: `omega`: the goal does not follow from what it read. All of that holds, and the goal fails, at `c.i` = 1", True),
    (AT + "`returns`: `search`: no proof of `words.word.Reads.Post x`", True),
    (AT + "`returns`: computed as far as they go, the two types differ only where one has `12288` (expected) and the other has `12287` (found)", True),
    (AT + "`loop-j-preserved`: as printed, the two types agree until one ends (expected), and the other goes on with", True),
    (AT + "`returns`: on the face `i = 0` this λ's body is `earlier c.room-buffers.result c.check-words.result`, but", True),
    (AT + "`left`: expected type `◌≡◌ (c.x) 0`, but this has type `◌≡◌ (c.x) 1`", True),
    ("refused, as it must be (only because a proof file names what the edit took away, so this says little of the contract: change a value and keep the names):"
     " ./proofs/run/run/Answers.antt:9:1: error: `returns-5`: `goal` has no `returns-5` that can be named from here", False),
    ("refused, as it must be (only by a limit of the prover, which gave no verdict, so this says less of the contract: choose a change that it refuses sooner):"
     " ./proofs/run/run/Answers.antt:9:1: error: antt ran out of the steps that the check of one declaration may take", False),
    (AT + "2 declarations that depend on `invariant-loop-i`, which was rejected, were not checked: returns, run_spec", False),
    (AT + "`returns`: expected type `goal.After-frame2`, but this has type `Rattle.runs.proofs.run.run.Lts.After-frame3 x`", False),
    (AT + "`third`: the two types differ only where one has `Rattle.a.proofs.b.Lts.Else2` (expected) and the other has `Rattle.a.proofs.b.Lts.Then2` (found)", False),
    ("refused, as it must be", False),
    ("BAD EDIT: an 'old:' text is in src/lib.rt 0 times, and not once", False),
    ("NOT REFUSED: the crate is still proved with this edit (one that means the same as before cannot be refused: remove it)", False),
]


def main():
    for line, due in MADE_UP:
        if is_fact("rows", line) != due:
            sys.exit(f"refused: FAILED: a made-up line is told wrongly:\n{line}")
    with open(sys.argv[1] if len(sys.argv) > 1 else "target/ci.log", encoding="utf-8", errors="replace") as f:
        told = {(crate, label): text for crate, label, text in LINE.findall(f.read())}
    edits = [(e.split("/")[1], os.path.basename(e)[:-5]) for e in sorted(glob.glob("crates/*/must-fail/*.edit"))]
    if len(sys.argv) > 1:
        edits = sorted(told)
    wrong = [edit for edit in edits if not is_fact(edit[0], told.get(edit, ""))]
    for crate, label in wrong:
        print(f"refused: WRONG: {crate}/{label}: no fact fails: {told.get((crate, label), 'rt tells nothing of it')}")
    print(f"refused: {len(edits) - len(wrong)} of {len(edits)} must-fail edits are refused because a fact fails")
    sys.exit(1 if wrong else 0)


main()
