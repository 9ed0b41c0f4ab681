"""The layout that docs/CHANGING.md asks for: lengths of lines, files, functions and chains of `.before`; how many functions a crate has; that
crates.txt lists the crates that each crate's files name, and no more; that what C is given has the contract of the library's function; that every
must-fail edit finds its lines; and that there is no dead text (tests/dead.py). Prints what is not so, and exits with 1 if anything is.

    python3 tests/house.py            from the repository's top
    python3 tests/house.py --crates   prints crates.txt as it should be, for the crates that it has
"""
import glob
import os
import re
import sys

sys.dont_write_bytecode = True  # the next lines read tests/dead.py and, by its path, tools/sources.py
import dead
import sources

LINE = {"src": 150, "specs": 150, "proofs": 200}  # characters
FILE = 300  # lines of a file of proofs
TOOL = 400  # lines of a file in tests/ and tools/
BODY = 40  # lines of a function's body
CHAIN = 5  # places of the code that a proof goes back by `.before` in one go: further back, they are named
PARAMETERS = 6
# two pairs of buffers are lent to one call, or a record beside one pair
MANY = {"expand_twice", "cue_expand_twice", "expand_within", "expand_retraced", "cue_expand_retraced", "expand_squares", "expand_weighed_recorded",
        "expand_kinded_recorded"}
# functions of a crate that has must-fail edits: an edit takes the time of its whole crate, and that is the number of its functions
FUNCTIONS = 16
# those that may have more: the table of numbers has its conversions in `system`; what is read in an index of a book is a line each; 01 names the
# reader, and fitting with the order test, as one crate each; the C interface has a line for each operation, and a conversion for each struct
MANY_FUNCTIONS = {"system": 18, "reader": 18, "layout": 17, "matching": 19, "cue": 20}
KIT = {"bytes", "check", "itoa"}  # the kit's libraries that crates.txt lists


def functions(text):
    """Each function's name, its parameters, and how many lines stand between its braces: none for a method that a trait only names."""
    lines = text.split("\n")
    for i, line in enumerate(lines):
        m = re.match(r'^( *)(?:pub(?:\(crate\))? )?(?:extern "C" )?fn (\w+)', line)
        if not m:
            continue
        head, j = line, i
        while ")" not in head:
            j += 1
            head += lines[j]
        parameters = [p for p in head[head.index("(") + 1 : head.index(")")].split(",") if p.strip()]
        start = j if lines[j].endswith("{") else next(k for k in range(j, len(lines)) if lines[k] == m.group(1) + "{" or lines[k].endswith(";"))
        end = next(k for k in range(start, len(lines)) if lines[k] == m.group(1) + "}" or lines[start].endswith(";"))
        yield m.group(2), parameters, max(end - start - 1, 0)


def misses(edit):
    """What an edit can't be applied for: each `old:` stands once in its file, after the edits before it."""
    text, old = "", ""
    for line in open(edit, encoding="utf-8").read().split("\n"):
        kind, _, rest = line.partition(": ")
        if kind == "file":
            text = open(edit.split("must-fail/")[0] + rest, encoding="utf-8").read()
        elif kind == "old":
            old = rest
            if text.count(old) != 1:
                yield f"{text.count(old)} times {old.strip()!r}"
        elif kind == "new":
            text = text.replace(old, rest, 1)


def crowded():
    """Crates with must-fail edits and too many functions."""
    for folder in sorted(glob.glob("crates/*/must-fail")):
        crate = folder.split("/")[1]
        count = sum(len(list(functions(open(p, encoding="utf-8").read()))) for p in glob.glob(f"crates/{crate}/src/**/*.rt", recursive=True))
        most = MANY_FUNCTIONS.get(crate, FUNCTIONS)
        if count > most:
            yield f"crates/{crate}: {count} functions, {most} at most: what is new stands in a crate of its own"


def built_on():
    """Of each crate its kind, what crates.txt lists, and the crates that its own files name; what these are built on rt finds by itself."""
    listed, kinds = {}, {}
    for line in open("crates.txt", encoding="utf-8"):
        head, _, rest = line.split("#")[0].partition(":")
        if head.strip():
            name, *kind = head.split()
            listed[name], kinds[name] = rest.split(), kind
    order = [*listed, *sorted(KIT)]
    for crate in listed:
        text = ""
        for path in (p for part in LINE for p in glob.glob(f"crates/{crate}/{part}/**/*.*", recursive=True)):
            if not path.endswith((".rt", ".antt")):
                continue
            comment = r"//.*" if path.endswith(".rt") else r"(^|\s)--.*"
            text += re.sub(comment, "", open(path, encoding="utf-8").read(), flags=re.M)
        named = set(re.findall(r"Rattle\.([a-z_0-9]+)\.", text)) | set(re.findall(r"(?<![\w:])([a-z_0-9]+)::", text))
        named -= set(re.findall(r"^use std::(?:\w+::)*(\w+);", text, re.M))  # a module of std by its own name
        yield crate, kinds[crate], set(listed[crate]), [name for name in order if name in named and name != crate]


def exported():
    """Functions for C that have another name or another contract than one of the library that they hand on."""
    found = sources.functions()
    for fn in found.values():
        library = found.get(fn.path.replace("_c::", "::"))
        if fn.exported and (library is None or fn.text.replace('extern "C" ', "") != library.text):
            yield f"{fn.file}: {fn.path} does not promise what the library's function does"


def main():
    over = [*crowded(), *exported()]
    for crate, _, listed, named in built_on():
        over += [f"crates.txt: {crate} names {name} too" for name in named if name not in listed]
        over += [f"crates.txt: {crate} does not name {name}" for name in sorted(listed - set(named))]
    for part, most in LINE.items():
        for path in sorted(glob.glob(f"crates/*/{part}/**/*.*", recursive=True)):
            if not path.endswith((".rt", ".antt")):
                continue
            text = open(path, encoding="utf-8").read()
            lines = text.split("\n")
            over += [f"{path}:{i}: {len(line)} characters, {most} at most" for i, line in enumerate(lines, 1) if len(line) > most]
            for i, line in enumerate(lines, 1) if part == "proofs" else []:
                chain = max((m.count(".before") for m in re.findall(r"(?:\.before ?)+", line)), default=0)
                if chain > CHAIN:
                    over.append(f"{path}:{i}: a chain of {chain} `.before`, {CHAIN} at most")
            if part == "proofs" and len(lines) - 1 > FILE:
                over.append(f"{path}: {len(lines) - 1} lines, {FILE} at most")
            for name, parameters, body in functions(text) if part == "src" else []:
                if body > BODY:
                    over.append(f"{path}: {name} has {body} lines, {BODY} at most")
                if len(parameters) > PARAMETERS and name not in MANY:
                    over.append(f"{path}: {name} has {len(parameters)} parameters, {PARAMETERS} at most")
    for path in sorted(glob.glob("tests/**/*", recursive=True) + glob.glob("tools/*")):
        if os.path.isdir(path):
            continue
        count = open(path, encoding="utf-8").read().count("\n")
        if count > TOOL:
            over.append(f"{path}: {count} lines, {TOOL} at most")
    over += dead.found()
    for edit in sorted(glob.glob("crates/*/must-fail/*.edit")):
        over += [f"{edit}: {wrong}" for wrong in misses(edit)]
    for line in over:
        print("house: " + line)
    sys.exit(1 if over else 0)


if "--crates" in sys.argv:
    print("# NAME: the crates that its files name; rt adds what these are built on")
    for crate, kind, _, named in built_on():
        print(" ".join([crate, *kind]) + ":", *named)
else:
    main()
