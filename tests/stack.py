#!/usr/bin/env python3
"""How much stack each operation of an archive takes.

    tests/stack.py ARCHIVE [LIMIT; 4096 if not said]

For each exported cue_* function: the bytes of its deepest chain of calls, and that chain; and which functions use the red zone. Read from
the compiled code (objdump), as a bound from above: a function takes its return address, every push and every move of the stack pointer in
it, and the red zone if it uses bytes below the stack pointer. A jump to another function counts as a call; one by a table of the function's own
(a `match`), each of whose places lies in that function, as a jump within it. What the C library brings counts with ALLOWED bytes. A function of OPEN may call itself: its frame counts as often as calls of it are open at most. tests/porting.py
holds the header's tables to this measure.

Exit status: 0 all at most LIMIT; 1 one above it, or one that can't be bounded: another recursion, a call or jump through a pointer, a frame
whose size is not a constant, a call of something unknown; 2 bad usage.
"""
import re
import subprocess
import sys

OUTSIDE = ("memcpy", "memmove", "memset")
ALLOWED = 256  # for each of those, its return address included
# functions that call themselves, and how many calls of each are open at most: docs/DECISIONS.md (sorts) says why
OPEN = {"sorts::sides::check": 32}
RED_ZONE = 128  # x86-64: what a function that calls no other may use below its stack pointer


class Unbounded(Exception):
    pass


class Function:
    def __init__(self, section, start):
        self.section, self.start = section, start
        self.frame = 8
        self.below = 0
        self.goes = []  # where it calls or jumps: a name or a section, the place in it, and whether it is a jump
        self.before = []  # the last three instructions, each with what the linker puts into it
        self.faults = []

    def by_table(self, tables, rest):
        """Whether a jump through a register takes its place from a table whose places all lie in this function: the table's address, the place of
        the number in it, counted from the table, and both added."""
        if len(self.before) < 3:
            return False
        (lea, table), (load, _), (add, _) = self.before
        m = re.fullmatch(r"movslq \((%\w+),%\w+,4\),(%\w+)", load)
        return bool(
            m
            and re.fullmatch(rf"lea 0x0\(%rip\),{m[1]}", lea)
            and add == f"add {m[1]},{m[2]}"
            and rest == f"*{m[2]}"
            and tables.get(table)
            and all(to == self.section for to in tables[table])
        )

    def take(self, instruction, tables):
        """Counts what one instruction does to the stack, and where it goes."""
        name, _, rest = instruction.partition(" ")
        if name in ("bnd", "notrack", "rep", "repz"):
            return self.take(rest, tables)
        if m := re.search(r"-0x([0-9a-f]+)\(%rsp([,)])(?!,%rsp)", rest):
            self.reach(int(m[1], 16), m[2] == ",", instruction)
        if name.startswith(("call", "j")):
            if name == "jmp" and self.by_table(tables, rest):
                return False
            if "*" in rest:
                self.faults.append(f"it goes through a pointer: {instruction}")
                return False
            self.goes.append((re.sub(r"^[^<]*<|(\+0x[0-9a-f]+)?>$", "", rest), 0, name.startswith("j")))
            return True
        if name.startswith("push"):
            self.frame += 8
        elif name.startswith("enter") or rest.endswith("%rsp") and not name.startswith(("cmp", "test")):
            self.frame += self.growth(instruction)
        return False

    def reach(self, below, indexed, instruction):
        """Counts an access so many bytes below the stack pointer. With an index it may be one of the frame, to whose index a number is added."""
        if below <= RED_ZONE:
            self.below = RED_ZONE
        elif not indexed:
            self.faults.append(f"it goes below the red zone: {instruction}")

    def growth(self, instruction):
        """By how much an instruction that sets the stack pointer moves it down."""
        if m := re.fullmatch(r"(sub|add)q? \$0x([0-9a-f]+),%rsp", instruction):
            n = int(m[2], 16)
            n -= (n >> 63) << 64
            return max(0, n if m[1] == "sub" else -n)
        if m := re.fullmatch(r"leaq? (-?0x[0-9a-f]+)\(%rsp\),%rsp", instruction):
            return max(0, -int(m[1], 16))
        if re.fullmatch(r"movq? %rbp,%rsp|leaq? -0x[0-9a-f]+\(%rbp\),%rsp", instruction):
            return 0  # back to where it was
        if m := re.fullmatch(r"andq? \$0xffffffffffffff([0-9a-f]{2}),%rsp", instruction):
            return 256 - int(m[1], 16)
        self.faults.append(f"the stack pointer is set by {instruction}")
        return 0


def objdump(archive, *flags):
    run = subprocess.run(["objdump", *flags, archive], capture_output=True, text=True)
    if run.returncode != 0:
        sys.exit("stack: " + run.stderr)
    return run.stdout.splitlines()


def tables_of(archive):
    """Of each section of data the sections that its places lie in."""
    tables, section = {}, ""
    for line in objdump(archive, "-r"):
        if m := re.match(r"RELOCATION RECORDS FOR \[(.+)\]:$", line):
            section = m[1]
        elif section.startswith(".rodata") and (m := re.match(r"[0-9a-f]+ R_\S+\s+(.+?)([-+]0x[0-9a-f]+)?$", line)):
            tables.setdefault(section, []).append(m[1])
    return tables


def functions(archive):
    """The functions of an archive by name."""
    tables = tables_of(archive)
    found, section, f, going = {}, "", None, False
    for line in objdump(archive, "-dr", "--no-show-raw-insn"):
        if m := re.match(r"Disassembly of section (.+):$", line):
            section = m[1]
        elif m := re.match(r"([0-9a-f]+) <(.+)>:$", line):
            if m[2] in found:
                sys.exit(f"stack: there are two functions {m[2]}")
            f = found[m[2]] = Function(section, int(m[1], 16))
        elif m := re.match(r"\s+[0-9a-f]+: R_\S+\s+(.+?)([-+]0x[0-9a-f]+)?$", line):
            # the linker puts the target in: this line says what it is (the place less 4, as the processor counts from the next instruction)
            if going:
                f.goes[-1] = (m[1], int(m[2] or "0", 16) + 4, f.goes[-1][2])
            f.before[-1] = (f.before[-1][0], m[1])
        elif m := re.match(r"\s+[0-9a-f]+:\t(.+)$", line):
            instruction = " ".join(m[1].split("#")[0].split())
            going = f.take(instruction, tables)
            f.before = f.before[-2:] + [(instruction, "")]
    return found


def called(found, name):
    """The functions that one calls or jumps to; a jump within itself is none."""
    own = found[name]
    for to, at, jump in own.goes:
        inside = [g for g, f in found.items() if f.section == to and f.start <= at]
        if to not in found and inside:
            to = max(inside, key=lambda g: found[g].start)
        if to != name or not jump:
            yield to


def deepest(found, name, around=()):
    """The bytes and the chain of the deepest calls from a function."""
    if name in around:
        raise Unbounded("recursion, " + " > ".join(around[around.index(name):] + (name,)))
    if name in OUTSIDE:
        return ALLOWED, [f"{name} {ALLOWED}"]
    if name not in found:
        raise Unbounded(f"{around[-1]} calls {name}, of which nothing is known")
    f = found[name]
    if f.faults:
        raise Unbounded(f"in {name} {f.faults[0]}")
    times = OPEN.get(name, 1)
    inner = [deepest(found, to, around + (name,)) for to in sorted(set(called(found, name))) if to != name or times == 1]
    inner.append((f.below, [f"below it {f.below}"] if f.below else []))
    most, chain = max(inner, key=lambda i: i[0])
    return f.frame * times + most, [f"{name} {f.frame}" + (f" x {times}" if times > 1 else "")] + chain


def in_red_zone(found):
    """The functions that use bytes below the stack pointer."""
    return sorted(name for name, f in found.items() if f.below)


def main(args):
    if len(args) not in (1, 2) or not all(a.isdigit() for a in args[1:]):
        print(__doc__, file=sys.stderr)
        return 2
    limit = int(args[1]) if len(args) == 2 else 4096
    found = functions(args[0])
    operations = sorted(name for name in found if name.startswith("cue_"))
    status = 0 if operations else 1
    for name in operations:
        try:
            size, chain = deepest(found, name)
        except Unbounded as why:
            print(f"stack: {name} can't be bounded: {why}")
            status = 1
            continue
        if size > limit:
            status = 1
        print(f"stack: {name} {size} bytes{f', ABOVE {limit}' if size > limit else ''}: {' > '.join(chain)}")
    below = in_red_zone(found)
    print(f"stack: the red zone is {'used by ' + ', '.join(below) if below else 'not used'}")
    return status


if __name__ == "__main__":
    sys.exit(main(sys.argv[1:]))
