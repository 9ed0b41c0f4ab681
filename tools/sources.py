"""Reads the sources of the house, for tools/believed and tests/house.py: the definitions and imports of antt files, the functions of the code with
their contracts. Only what rt fmt leaves is read: a declaration starts at its block's own depth, and a `use` stands on one line."""
import collections
import glob
import os
import re

# the crates of the house; other paths that begin with Rattle are the kit's
CRATES = {os.path.basename(path) for path in glob.glob("crates/*")}

# a name of antt, and a name with a path before it
NAME = re.compile(r"[^\s(){}\[\].;,@\"«»λ→×≡|]+")
PATH = re.compile(r"(?<![^\s(){}\[\];,@])(?:package\.)?([^\s(){}\[\].;,@\"«»]+(?:\.[^\s(){}\[\].;,@\"«»]+)+)")
HEAD = re.compile(r"^ *((?:unfoldable |abbrev )*)(pub )?(?:(record|data|axiom) )?([^\s:({]+)\s*([:({]|$)")
USE = re.compile(r"^(?:ghost |unfoldable |abbrev )*(pub )?use (?:package\.)?([^\s{;]+?)(?:\.\{(.*)\})?(?: as ([^\s;]+))?;?\s*$")
OWN = re.compile(r"Rattle\.([a-z_0-9]+)\.(specs|proofs)(?:\.(.+))?$")
# a function's head, with its contract: it ends with its first line, where a brace ends that, or before the line that is its brace
FN = re.compile(r'^( *)(pub )?(extern "C" )?fn (\w+)(?:[^\n]*\{$|[^\n]*(?:\n(?!\1(?:\{|\).*\{$))[^\n]*)*)', re.M)
CLAUSE = re.compile(r"^ +ensures (\w+) \{(.*?)(?=^ +(?:ensures|requires|decreases)\b|\Z)", re.M | re.S)
# what may stand where a name does, and begins no declaration
WORDS = ("use", "mod", "pub", "module", "mutual", "infix", "infixl", "infixr", "unfolding", "where")

Definition = collections.namedtuple("Definition", "name line text said lines transparent")
Function = collections.namedtuple("Function", "path file text imports public exported asks clauses")


def strip(text):
    return "\n".join(re.split(r"(?:^|\s)--", line)[0] for line in text.split("\n"))


def depth(line):
    return len(line) - len(line.lstrip())


def module_key(path):
    """The file that a module of our own stands in, as (crate, part, module); none for a module of the kit."""
    m = OWN.match(path)
    return (m.group(1), m.group(2), m.group(3) or "Lib") if m and m.group(1) in CRATES else None


def key_of(path):
    """The same of a file's path."""
    crate, part, rest = path.split("crates/")[1].split("/", 2)
    return (crate, part, rest[:-5].replace("/", "."))


class Imports:
    """What the `use` lines bring of our own: items {name: (module, its name there)}, those of them that are passed on, modules {name: path}; the
    lines that bring something under another name or a module as a whole, and those of a form that is not followed."""

    def __init__(self, lines):
        self.items, self.passed, self.modules, self.odd, self.renamed = {}, {}, {}, [], []
        for line in lines:
            if not re.match(r"^ *[a-z ]*\b(?:use|open) ", line):
                continue
            m = USE.match(line)
            if not m or m.group(2).endswith("*") or m.group(2).split(".")[0] in self.modules:
                self.odd.append(line.strip())
                continue
            if not module_key(m.group(2)):
                continue
            if m.group(3) is None or " as " in m.group(3):
                self.renamed.append(line.strip())
            if m.group(3) is None:
                name = m.group(4) or m.group(2).split(".")[-1]
                self.modules[name] = m.group(2)
                continue
            for item in m.group(3).split(","):
                there, _, here = item.strip().partition(" as ")
                home = ".".join([m.group(2)] + there.split(".")[:-1])
                name = here.strip() or there.split(".")[-1]
                self.items[name] = (module_key(home), there.split(".")[-1])
                if m.group(1):
                    self.passed[name] = self.items[name]


class File:
    """An antt file: its definitions, its imports, the constructors of its data types."""

    def __init__(self, path):
        self.path = path
        self.key = self.crate, self.part, module = key_of(path)
        self.inner = self.part == "proofs" or "." in module
        self.cases = not self.inner and module == "Cases"
        lines = open(path, encoding="utf-8").read().split("\n")
        self.imports = Imports(lines)
        self.defs, self.made = {}, {}
        for at, end, kind, private, name, around in declarations(lines):
            start = at
            while start > 0 and lines[start - 1].strip().startswith("--"):
                start -= 1
            while end > at + 1 and (not lines[end - 1].strip() or lines[end - 1].strip().startswith("--")):
                end -= 1
            body = "\n".join(lines[at:end])
            whole = self.part == "specs" or kind
            said = body if whole else re.split(r"\n *(?:unfolding |" + re.escape(name) + r"(?:\s|$))", body)[0]
            transparent = self.part == "proofs" and private and "abbrev" in kind
            text, said = "\n".join(lines[start:end]), strip(said + "\n" + around)
            if name in self.defs:  # a private name of two modules of a file: each stands for both
                said, transparent = self.defs[name].said + "\n" + said, transparent and self.defs[name].transparent
            self.defs[name] = Definition(name, at + 1, text, said, end - start, transparent)
            if "data" in kind:
                for m in re.finditer(r"^\s+([^\s:]+) :", body, re.M):
                    self.made[m.group(1)] = name


def declarations(lines):
    """Each declaration: its first line and the one behind its last, what kind it is, whether it is private, its name, and the parameters of
    the modules that it stands in."""
    # the modules around: [depth of its line, depth inside, its head]; one whose head goes on; the declaration that goes on
    found, modules, header, now = [], [], None, None
    for i, line in enumerate(lines + [""]):
        if header is not None or re.match(r"^ *module\b", line) and (not now or depth(line) <= now[0]):
            if header is None:
                if now:
                    found.append(now[1] + (i,))
                    now = None
                while modules and modules[-1][0] >= depth(line):
                    modules.pop()
                header = [depth(line), None, ""]
            header[2] += line + "\n"
            if strip(line).rstrip().endswith("where"):
                modules.append(header)
                header = None
            continue
        if not line.strip() or line.strip().startswith("--"):
            continue
        while modules and depth(line) <= modules[-1][0]:
            modules.pop()
        if modules and modules[-1][1] is None:
            modules[-1][1] = depth(line)
        if depth(line) != (modules[-1][1] if modules else 0):
            continue
        if re.match(r"^ *(pub )?ruleset ", line):
            # laws under one name: no part of what stands before it
            if now:
                found.append(now[1] + (i,))
                now = None
            continue
        m = HEAD.match(line)
        if not m or m.group(4) in WORDS or re.match(r"^ *(pub )?mod ", line):
            continue
        if not (m.group(1) or m.group(2) or m.group(3)) and not re.match(r"^ *\S+ :(\s|$)", line):
            continue
        if now:
            found.append(now[1] + (i,))
        kind = m.group(1) + (m.group(3) or "")
        now = (depth(line), (i, kind, not m.group(2), m.group(4), "".join(x[2] for x in modules)))
    if now:
        found.append(now[1] + (len(lines),))
    return [(at, end, kind, private, name, around) for at, kind, private, name, around, end in found]


def functions():
    """Every function of every crate, by its path."""
    found = {}
    for path in sorted(glob.glob("crates/*/src/**/*.rt", recursive=True)):
        crate, _, rest = path.split("crates/")[1].split("/", 2)
        modules = [] if rest in ("lib.rt", "main.rt") else rest[:-3].split("/")
        text = open(path, encoding="utf-8").read()
        imports = Imports([line for line in text.split("\n") if line.startswith("ghost ")])
        for m in FN.finditer(text):
            said = "\n".join(line.split("//")[0] for line in m.group(0).split("\n"))
            exported = bool(m.group(3)) or re.search(r"#\[[^\n]*no_mangle[^\n]*\]\n\Z", text[: m.start()]) is not None
            asks = re.search(r"^ +requires\b", said, re.M) is not None
            name = "::".join([crate] + modules + [m.group(4)])
            found[name] = Function(name, path, said, imports, bool(m.group(2)), exported, asks, dict(CLAUSE.findall(said)))
    return found
