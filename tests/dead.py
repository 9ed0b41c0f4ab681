"""Dead text: definitions and laws that nothing names, imports that are not used, files of proofs that nobody imports. tests/house.py asks for it.

    python3 tests/dead.py      from the repository's top: a line for each, and 1 if there is any
"""
import collections
import glob
import re
import sys

sys.dont_write_bytecode = True
sys.path.insert(0, "tools")  # tools/sources.py
from sources import declarations, depth

TOKEN = re.compile(r"\[\]|[^\s(){}\[\].;:,@\"«»λ⌜⌝⟦⟧]+")
USE = re.compile(r"^\s*(?:ghost )?use ([^\s{;]+)\.\{([^}]*)\}")
# what a file of invariants or of answers gives for a goal, under its name
ANSWER = re.compile(r"(?:abbrev )?pub (\S+) : \w+\.\1\b")
# laws that nothing names and that stay, each with its reason; files' word_at and redexes' built-number stay too, and share their names with others
KEPT = {
    "fault-of": "a number tells its fault back, as users and C read it: no two faults have one",
    "below-builtin": "words below 16,384 are names: no levels and no operators",
    "below-literal": "words below 16,384 are names: no levels",
    "number-place": "the reader's language: a refused count, length or entry is refused where it stands",
    "weight-take": "the first words of a side or a term weigh no more than all of it",
    "term-end": "a gap that is the whole row leaves no word of a term",
    "listed-number": "a rule's number tells whether the book lists it: below 128; built-number, beside it, has the others",
}


def strip(line, code):
    return re.sub(r"//.*" if code else r"(^|\s)--.*", "", line)


def uses(name, counter):
    """How often a name stands in a text; of an operator its rarest part."""
    parts = [p for p in name.split("◌") if p]
    return max(counter[name], min((counter[p] for p in parts), default=0)) if "◌" in name else counter[name]


def tokens(lines):
    return collections.Counter(TOKEN.findall("\n".join(line for line in lines if not re.match(r"^\s*(ghost )?(pub )?(use|mod) ", line))))


def unnamed(texts, said):
    """Definitions that stand nowhere but in their own text: of all files a `pub` one, of its own file a private one. The documents name a law in
    backquotes, or behind its file (SquareLaw's value-at)."""
    counts = {path: tokens(lines) for path, lines in texts.items()}
    total = sum(counts.values(), collections.Counter())
    for path, lines in texts.items():
        if not path.endswith(".antt"):
            continue
        for at, end, _, private, name, _ in declarations(lines):
            while end > at + 1 and depth(lines[end - 1]) < depth(lines[at]):
                end -= 1
            used = uses(name, counts[path] if private else total)
            if used > 20 or used > uses(name, tokens(lines[at:end])):
                continue
            contract = name.endswith(("-spec", "_spec", "-cases", "-case")) or path.endswith("/Cases.antt") or ANSWER.match(lines[at])
            if not contract and not re.search(rf"`{re.escape(name)}`|[A-Z]\w*'s (?:[\w-]+, )*{re.escape(name)}(?![\w-])", said):
                yield name, f"{path}:{at + 1}: nothing names {name}"


def unused(texts):
    """Names that a `use` line brings and the file does not name."""
    for path, lines in texts.items():
        inside = tokens(lines)
        for i, line in enumerate(lines, 1):
            m = USE.match(line)
            for item in m.group(2).split(",") if m else []:
                name = item.split(" as ")[-1].strip()
                if name and name != "◌||◌" and not uses(name, inside):
                    yield f"{path}:{i}: {name} is brought, and not used"


def alone(texts, said):
    """Files of proofs that hold something and that no file imports; a function's own proof, and computed cases, nobody has to."""
    everything = "\n".join("\n".join(lines) for lines in texts.values())
    for path, lines in texts.items():
        crate, part, rest = path.split("crates/")[1].split("/", 2)
        if part != "proofs" or rest.endswith(("Proof.antt", "Invariants.antt", "Answers.antt", "Lib.antt", "Cases.antt")) or not declarations(lines):
            continue
        module = re.escape(rest[:-5].replace("/", "."))
        # by an attribute too, as a Rust path: using(crate::proofs::Words::length_more)
        rust = rest[:-5].replace("/", "::")
        if not re.search(rf"Rattle\.{crate}\.proofs\.{module}(?!\w)|(?:crate|{crate})::proofs::{rust}::", everything) and path.split("crates/")[1] not in said:
            yield f"{path}: nobody imports it"


def found():
    texts = {}
    for pattern in ("crates/*/src/**/*.rt", "crates/*/specs/**/*.antt", "crates/*/proofs/**/*.antt"):
        for path in sorted(glob.glob(pattern, recursive=True)):
            texts[path] = [strip(line, path.endswith(".rt")) for line in open(path, encoding="utf-8").read().split("\n")]
    said = "".join(open(path, encoding="utf-8").read() for path in ("docs/PROVED.md", "docs/CHANGING.md", "README.md"))
    names = list(unnamed(texts, said))
    idle = [f"tests/dead.py: {name} is kept, and is not dead" for name in KEPT if name not in dict(names)]
    return [line for name, line in names if name not in KEPT] + idle + [*unused(texts), *alone(texts, said)]


if __name__ == "__main__":
    dead = found()
    print(*dead, sep="\n")
    sys.exit(1 if dead else 0)
