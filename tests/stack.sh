#!/usr/bin/env bash
# The stack that each public operation takes, measured from the compiled archives; the desk's task has 4,096 bytes. Then the measure itself is
# tried on small functions: on those that can't be bounded, or are too deep, it must fail. Where no archive is named, both are built, and
# the header's tables of sizes and stack are held to them.
#     tests/stack.sh [LIMIT in bytes; 4096 if not said] [ARCHIVE ..]
#     tests/stack.sh --write      builds the archives, and writes the tables into include/cue.h
# With BUILT=1 the archives are taken as they are, for a caller that has just built them.
set -euo pipefail
write=
if [ "${1:-}" = --write ]; then
    write=$1
    shift
fi
limit=${1:-4096}
archives=()
for archive in "${@:2}"; do archives+=("$(realpath "$archive")"); done
cd "$(dirname "$0")/.."
to=target/outside
mkdir -p "$to"

fail() { printf 'stack: FAILED: %s\n' "$*"; exit 1; }

ours=()
if [ ${#archives[@]} = 0 ]; then
    for crate in cue cue_replay; do
        [ "${BUILT:-0}" = 1 ] || tools/build "$crate" > "$to/stack.log" 2>&1 || { cat "$to/stack.log"; fail "the archive of $crate is not built"; }
        ours+=("target/staticlib/lib$crate.a")
    done
fi
for archive in "${archives[@]}" "${ours[@]}"; do
    echo "stack: $(basename "$archive")"
    python3 tests/stack.py "$archive" "$limit" || fail "an operation takes more than $limit bytes of stack, or can't be bounded"
done

# whether the measure of some lines of C prints what is expected
tried() { # WHAT IT PRINTS, THE LINES [A WORD FOR THE COMPILER]
    printf '%s\n' '#define APART __attribute__((noipa))' "$2" > "$to/tried.c"
    gcc -O2 ${3:-} -c "$to/tried.c" -o "$to/tried.o"
    objcopy --redefine-sym sorts_sides_check=sorts::sides::check "$to/tried.o"
    status=0
    python3 tests/stack.py "$to/tried.o" > "$to/tried.out" || status=$?
    case $1 in *' bytes' | *' x 32' | 'red zone'*) expected=0 ;; *) expected=1 ;; esac
    if [ "$status" != "$expected" ] || ! grep -q "$1" "$to/tried.out"; then
        cat "$to/tried.c" "$to/tried.out"
        fail "the measure does not say '$1' of this"
    fi
}
tried 'recursion' 'int cue_a(int n) { return n ? cue_a(n - 1) / 3 + n : 1; }'
tried 'recursion' 'int cue_a(int n); APART int b(int n) { return cue_a(n - 1) / 3; } APART int cue_a(int n) { return n ? b(n) + 1 : 0; }'
# the one function that may call itself: its frame counts 32 times, and a way round through another is still none
own='#define check sorts_sides_check
int b(int n); APART int check(int n);
int cue_a(int n) { return check(n) + 1; }
int check(int n)'
tried 'check [0-9]* x 32' "$own { return n ? check(n - 1) / 3 + n : 1; }"
tried 'ABOVE 4096' "$own { volatile char v[200]; v[n] = 1; return n ? check(n - 1) / 3 + v[1] : 1; }"
tried 'recursion' "$own { return n ? b(n - 1) / 3 + n : 1; } APART int b(int n) { return check(n) + 1; }"
tried 'through a pointer' 'int cue_a(int f(int)) { return f(1) + 1; }'
tried 'through a pointer' 'int cue_a(int f(int)) { return f(1); }'
tried 'stack pointer is set' 'int cue_a(int n) { char v[n]; __asm__("" : : "r"(v) : "memory"); return v[0]; }'
tried 'nothing is known' 'int other(int); int cue_a(int n) { return other(n) + 1; }'
# 3,000 bytes each: together above the limit, by a call and by a jump at the end
deep='APART int b(int n) { volatile char v[3000]; v[n] = 1; return v[1]; }'
tried 'ABOVE 4096' "$deep int cue_a(int n) { volatile char v[3000]; v[n] = 1; return b(n) + v[1]; }"
tried 'ABOVE 4096' "$deep int cue_a(int n) { volatile char v[3000]; v[n] = 1; return b(n); }"
tried 'cue_a 3[01].. bytes' "$deep int cue_a(int n) { return b(n) + 1; }"
# a return address, and 64 bytes below the stack pointer
leaf='int cue_a(int n) { volatile char v[64]; v[n] = 1; return v[1]; }'
tried 'cue_a 136 bytes' "$leaf"
tried 'red zone is used by cue_a$' "$leaf"
tried 'red zone is not used' "$leaf" -mno-red-zone
tried 'below the red zone' 'int cue_a(void) { int r; __asm__("movl -0x100(%%rsp), %0" : "=r"(r)); return r; }'

[ ${#ours[@]} = 2 ] || exit 0

[ -z "$write" ] || python3 tests/porting.py --write include/cue.h "${ours[@]}"
python3 tests/porting.py include/cue.h "${ours[@]}" || fail "the header's tables are not those of the archives"
# a table with wrong rows: so many must be seen, and be put right
spoilt() { # HOW MANY, WHAT SED DOES TO THE ROWS
    sed "$2" include/cue.h > "$to/spoilt.h"
    ! python3 tests/porting.py "$to/spoilt.h" "${ours[@]}" > "$to/spoilt" || fail "a table spoilt by $2 is taken"
    [ "$(grep -c 'it should be' "$to/spoilt")" = "$1" ] || fail "of a table spoilt by $2 not $1 rows are seen"
    python3 tests/porting.py --write "$to/spoilt.h" "${ours[@]}" > "$to/spoilt"
    cmp include/cue.h "$to/spoilt.h" || fail "a table spoilt by $2 is not put right"
}
rows='^ \*   \(lib\|cue_\)'
spoilt "$(grep -c "$rows" include/cue.h)" "/$rows/s/[0-9]\( \|\$\)/0&/"
spoilt "$(grep -c "${rows}.*used\$" include/cue.h)" "/$rows/{s/not used\$/used/;t;s/used\$/not used/}"
spoilt 1 '/^ \*   cue_expand_retraced /d'
# an instruction of a later processor must be seen
echo 'int cue_a(unsigned n) { return __builtin_popcount(n); }' > "$to/tried.c"
gcc -O2 -mpopcnt -c "$to/tried.c" -o "$to/tried.o"
! python3 tests/porting.py include/cue.h "${ours[@]}" "$to/tried.o" 2> "$to/spoilt" && grep -q 'popcnt' "$to/spoilt" || fail "a later instruction is taken"
echo "stack: the header's tables of sizes and stack are those of the archives"
