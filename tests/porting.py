#!/usr/bin/env python3
"""Holds the two tables in include/cue.h, of sizes and of stack, to the compiled archives.

    tests/porting.py [--write] HEADER ARCHIVE ..

The tables stand below their lines of headings, each up to the next empty line. One has a row for each archive, and one for the functions of a show
alone: the bytes that are linked, what the C library must bring, and whether the red zone is used, of which the header warns. The other has each
function's archive and stack (tests/stack.py). Prints each line of the header that is not so, with the line that is due; --write puts the lines that
are due there.

Exit status: 0 the tables are so; 1 they are not, or an archive has data that can be written or instructions beyond SSE2, or the stack can't be
bounded; 2 bad usage.
"""
import os
import re
import subprocess
import sys
import tempfile

import stack

SHOW = ("cue_test_strategies", "cue_expand")  # what a desk calls for a show
SIZES = " *   {:<52}{:>9}   {:<16}{}"
STACK = " *   {:<24}{:<20}{:>12}"


def said(*command, given=None):
    run = subprocess.run(command, input=given, capture_output=True, text=True)
    if run.returncode != 0:
        sys.exit(f"porting: {' '.join(command)}: {run.stderr}")
    return run.stdout.splitlines()


def linked(path):
    """How many bytes of a file come into a program: code, constants, and the tables for debuggers that go with the code."""
    total = 0
    for line in said("objdump", "-hw", path):
        m = re.match(r" *\d+ (\S+) +([0-9a-f]+) .*\bALLOC\b(.*)", line)
        if not m or int(m[2], 16) == 0:
            continue
        if "READONLY" not in m[3]:
            sys.exit(f"porting: {path}: section {m[1]} can be written")
        total += int(m[2], 16)
    return total


def up_to_sse2(archive):
    """Fails where an archive has an instruction that not every x86-64 has: the assembler is to take all but jumps and what fills gaps."""
    listed = said("objdump", "-d", "--no-show-raw-insn", archive)
    found = {m[1] for line in listed if (m := re.match(r"\s+[0-9a-f]+:\t([^#<]+)", line))}
    plain = sorted(i for i in found if not re.match(r"call|j|bnd |notrack |data16 |cs nop|nop", i))
    said("as", "-march=generic64", "-o", os.devnull, "-", given="\n".join(plain) + "\n")


def show_alone(archive):
    """The same of what the linker keeps of an archive for the functions of a show, with --gc-sections; and what that needs."""
    with tempfile.TemporaryDirectory() as room:
        out = os.path.join(room, "show")
        roots = [word for name in SHOW for word in ("-u", name)]
        said("ld", "--gc-sections", "--unresolved-symbols=ignore-all", "-e", SHOW[0], *roots, "-o", out, archive)
        return linked(out), needs(out)


def needs(linkable):
    """The functions of others that it calls."""
    return ", ".join(sorted(line.split()[-1] for line in said("nm", "-u", linkable) if " U " in line)) or "nothing"


def declared(header):
    """The functions that the header declares, in its order."""
    code = re.sub(r"/\*.*?\*/|static inline.*?\n}", "", header, flags=re.S)
    return re.findall(r"\b(cue_[a-z_]+)\(", code)


def tables(header, archives):
    """The rows that are due below the two lines of headings."""
    sizes, depths = [], []
    for archive in archives:
        up_to_sse2(archive)
        name, found = os.path.basename(archive), stack.functions(archive)
        zone = "used" if stack.in_red_zone(found) else "not used"
        sizes.append(SIZES.format(name, f"{linked(archive):,}", needs(archive), zone))
        if all(f in found for f in SHOW):
            size, asked = show_alone(archive)
            sizes.append(SIZES.format(f"{name}, {SHOW[0]} and {SHOW[1]} alone", f"{size:,}", asked, zone))
        for f in (f for f in declared(header) if f in found):
            depths.append(STACK.format(f, name, f"{stack.deepest(found, f)[0]:,}"))
    return {SIZES.format("linked", "bytes", "needs", "red zone"): sizes, STACK.format("function", "archive", "stack, bytes"): depths}


def main(args):
    write = args[:1] == ["--write"]
    args = args[write:]
    if len(args) < 2 or any(a.startswith("-") for a in args):
        print(__doc__, file=sys.stderr)
        return 2
    header, archives = args[0], args[1:]
    lines = open(header, encoding="utf-8").read().split("\n")
    wrong = 0
    for heading, due in tables("\n".join(lines), archives).items():
        if lines.count(heading) != 1:
            sys.exit(f"porting: {header} has the line {heading!r} {lines.count(heading)} times, and not once")
        start = lines.index(heading) + 1
        end = next(i for i in range(start, len(lines)) if not lines[i].startswith(" *   "))
        for i in range(max(end - start, len(due))):
            here, there = (part[i] if i < len(part) else "no line" for part in (lines[start:end], due))
            if here != there:
                wrong += 1
                print(f"porting: {header}:{start + i + 1}: {here}\nporting: it should be {there}")
        lines[start:end] = due
    if write:
        open(header, "w", encoding="utf-8").write("\n".join(lines))
    elif wrong:
        print("porting: `bash tests/stack.sh --write` puts the lines that are due into include/cue.h")
    return 0 if write or not wrong else 1


if __name__ == "__main__":
    try:
        sys.exit(main(sys.argv[1:]))
    except stack.Unbounded as why:
        sys.exit(f"porting: a function can't be bounded: {why}")
