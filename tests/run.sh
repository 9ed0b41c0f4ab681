#!/usr/bin/env bash
# The checks from outside: the C interface and its header, the stack and the sizes, the C and Rust examples, random books against the second
# evaluator (which must also find faults that are planted in it), the words tool, the examples, the programs' files, the steps tool, the weights
# tool, the kinds tool and the places tool. Everything is written under target/outside. Each is a part, and two parts run at a time, as the end of this file has
# them; what a part prints is shown whole, in the order of the parts here.
#     tests/run.sh [CASES of the random run; 100000 if not said]
set -euo pipefail
cd "$(dirname "$0")/.."
cases=${1:-100000}
to=target/outside
parts=$to/parts
rm -rf "$parts"
mkdir -p "$parts"
log=$parts/log
archive=target/staticlib/libcue.a
replay=target/staticlib/libcue_replay.a
strict=(-std=c99 -Wall -Wextra -pedantic -Werror)

say() { printf 'outside: %s\n' "$*"; }
fail() { say "FAILED: $*"; exit 1; }
# a command whose output is shown only where it fails
quiet() { "$@" > "$log" 2>&1 || { cat "$log"; fail "$*"; }; }
# a script that holds what a program prints for its files to lines written by hand
prints() { # SCRIPT PROGRAM
    said=$(bash "$1" "$2") || { printf '%s\n' "$said"; fail "$2 prints something else for its files"; }
    say "$said"
}

# A part is a function. It has its own log, and its exit status stands beside what it prints. It is a group of processes, so that nothing of it runs
# on where this script ends early.
declare -A group
trap 'for g in $(jobs -p); do kill -- "-$g"; done 2> /dev/null' EXIT
# starts a part as soon as fewer than two are running
start() { # PART
    while [ "$(jobs -rp | wc -l)" -ge 2 ]; do wait -n || true; done
    set -m
    (
        own=$parts/$1 log=$parts/$1.log
        trap 'echo $? > "$own.status"' EXIT
        "$1"
    ) > "$parts/$1" 2>&1 < /dev/null &
    set +m
    group[$1]=$!
}
# waits for parts; one that failed fails all, with what it printed
ended() { # PART..
    local part
    for part; do
        wait "${group[$part]}" 2> /dev/null || true
        [ "$(cat "$parts/$part.status")" = 0 ] || { cat "$parts/$part"; fail "see above: $part"; }
    done
}
show() { # PART..
    local part
    for part; do
        ended "$part"
        cat "$parts/$part"
    done
}

# 1. what the archives export, and their header in C99 and C++
exports() {
    printf '#include "cue.h"\nint main(void) { return CUE_TAKEN; }\n' | tee "$to/empty.c" > "$to/empty.cpp"
    quiet gcc "${strict[@]}" -Iinclude -fsyntax-only "$to/empty.c"
    quiet g++ -std=c++11 -Wall -Wextra -pedantic -Werror -Iinclude -fsyntax-only "$to/empty.cpp"
    for a in "$archive" "$replay"; do nm -g --defined-only "$a"; done | awk '$2 == "T" { print $3 }' | sort > "$to/exported"
    grep -v inline include/cue.h | grep -oE '\bcue_[a-z_]+\(' | tr -d '(' | sort -u > "$to/declared"
    diff "$to/exported" "$to/declared" || fail "the header does not declare what the archives export, each function once"
    say "the archives export, and the header declares, $(wc -l < "$to/exported") functions"
}

# 2. the stack of each operation: below the 4,096 bytes that the desk's task has; with a limit too low the measure must fail; the header's tables
# of sizes and stack; and what the one recursion really takes of it, on the sides that open the most calls
stack() {
    BUILT=1 bash tests/stack.sh || fail "the stack, or the header's tables"
    ! BUILT=1 bash tests/stack.sh 100 > "$to/low" 2>&1 && grep -q 'ABOVE 100:' "$to/low" || fail "the stack is never too deep"
    # its calls of the C library are bound as it starts: the linker's own work at a first call is no stack of the test
    quiet gcc "${strict[@]}" -D_GNU_SOURCE -Iinclude tests/depth.c "$archive" -Wl,-z,now -o "$to/depth"
    told=$(sed -n 's/^ \*   cue_test_kinds  *libcue.a  *\([0-9,]*\)$/\1/p' include/cue.h | tr -d ,)
    frame=$(python3 tests/stack.py "$archive" | sed -n 's/.* > sorts::sides::check \([0-9]*\) x 32$/\1/p')
    "$to/depth" "$told" "$frame" || fail "the test by kinds takes another stack than the header tells"
}

# 3. the header's version, sizes, limits and words against what the functions do, and the examples in C and Rust, for which libcue.a is enough
header() {
    quiet gcc "${strict[@]}" -Iinclude tests/header.c "$archive" "$replay" -o "$to/header"
    "$to/header" || fail "the header's sizes are not the functions'"
    quiet gcc "${strict[@]}" -Iinclude examples/c/expand.c "$archive" -o "$to/expand-c"
    "$to/expand-c" > "$to/expand-c.out"
    diff examples/c/stdout "$to/expand-c.out" || fail "the C example prints something else"
    mkdir -p "$to/another"
    sed 's/^#define CUE_VERSION_MINOR .*/&1/' include/cue.h > "$to/another/cue.h"
    cp examples/rust/expand.rs "$to/another"
    sed 's/^pub const VERSION: u32 = /&1 + /' examples/rust/cue.rs > "$to/another/cue.rs"
    quiet gcc "${strict[@]}" -I"$to/another" examples/c/expand.c "$archive" -o "$to/expand-another"
    ! "$to/expand-another" > "$to/expand-another.out" 2>&1 || fail "the C example takes the header of another version"
    grep -q 'different versions' "$to/expand-another.out" || fail "the C example fails otherwise than by the version"
    quiet rustc --edition 2021 -D warnings -L target/staticlib examples/rust/expand.rs -o "$to/expand-rust"
    "$to/expand-rust" > "$to/expand-rust.out"
    diff examples/rust/stdout "$to/expand-rust.out" || fail "the Rust example prints something else"
    quiet rustc --edition 2021 -D warnings -L target/staticlib "$to/another/expand.rs" -o "$to/expand-another"
    ! "$to/expand-another" > "$to/expand-another.out" 2>&1 || fail "the Rust example takes the archive of another version"
    grep -q 'another version' "$to/expand-another.out" || fail "the Rust example fails otherwise than by the version"
    say "the C example and the Rust example print what the paper prints, and refuse an archive of another version"
}

# 4. random books against the second evaluator, and the planted faults
second() { quiet rustc -O --edition 2021 -D warnings -L target/staticlib tests/second/main.rs -o "$to/second"; }
random() { "$to/second" "$cases" || fail "the product and the second evaluator differ, or a number came too seldom"; }
planted() {
    plants=37
    for ((plant = 1; plant <= plants; plant++)); do
        status=0
        "$to/second" --plant "$plant" > "$to/plant-$plant" || status=$?
        if [ "$status" != 1 ] || ! grep -q 'cut down' "$to/plant-$plant"; then
            cat "$to/plant-$plant"
            fail "planted fault $plant was not found"
        fi
        say "planted fault $plant was found: $(sed -n 's/^second: DIFFERENCE //p' "$to/plant-$plant")"
    done
    # there is no fault more, and docs/TRYING.md tells how many there are
    status=0
    "$to/second" --plant $((plants + 1)) 2> "$to/usage" || status=$?
    [ "$status" = 2 ] && grep -q -- "--plant 1 to $plants\]" "$to/usage" || fail "the faults that can be planted are not 1 to $plants"
    grep -q "plants a fault (1 to $plants)" docs/TRYING.md || fail "docs/TRYING.md does not say that the faults are 1 to $plants"
}

# 5. the words tool, there and back, and its files. What is packed here of examples/NAME/TEXT.txt is target/outside/NAME/TEXT for the parts below
words() {
    for text in examples/*/*.txt; do
        packed=$to/${text#examples/} packed=${packed%.txt}
        mkdir -p "$(dirname "$packed")"
        rm -f "$packed" "$packed.again" "$packed.txt"
        printf '/dev/null - %s\n' "pack $text $packed" "unpack $packed $packed.txt" "pack $packed.txt $packed.again"
    done | python3 tests/many.py tools/words > "$to/statuses"
    ! grep -vx 0 "$to/statuses" || fail "a text of the examples is refused, there or back"
    for text in examples/*/*.txt; do
        packed=$to/${text#examples/} packed=${packed%.txt}
        cmp "$packed" "$packed.again" || fail "$text comes back otherwise"
        sed 's/#.*//' "$text" | tr -s ' \t' '\n' | sed '/^$/d' | diff - "$packed.txt" || fail "$text comes back with other words"
    done
    say "the words tool goes there and back"
    prints tests/words.sh tools/words
}

# 6. the examples, by both programs
programs() {
    for folder in examples/*/; do
        name=$(basename "$folder")
        [ -f "$folder/book.txt" ] || continue
        cp "$to/$name/book" "$to/$name/show.book"
        cp "$to/$name/cue" "$to/$name/show.cue"
        (cd "$to/$name" && ../../bin/expand > stdout && ../../bin/check_book > check)
        for printed in stdout check; do
            diff "$folder/$printed" "$to/$name/$printed" || fail "example $name prints something else"
        done
        say "example $name prints what it should"
    done
    prints tests/program.sh target/bin/expand
    prints tests/check_book.sh target/bin/check_book
}

# 7. the steps tool: an example with the expander's own record, one in another order and one with a wrong pair; and its files
steps() {
    quiet gcc "${strict[@]}" -Iinclude tools/steps.c "$archive" "$replay" -o "$to/steps"
    example=examples/step-record at=$to/step-record
    for record in ours other held; do
        "$to/steps" "$at/book" "$at/cue" "$at/record-$record" > "$at/steps" || [ "$record" = held ] || fail "the record $record is refused"
        diff "$example/steps-$record" "$at/steps" || fail "the steps of record $record are others"
    done
    "$to/steps" -o "$at/written" "$at/book" "$at/cue" > "$at/steps" || fail "the example is not expanded"
    diff "$example/steps-ours" "$at/steps" || fail "the example's steps are others"
    cmp "$at/record-ours" "$at/written" || fail "the example's record is another"
    say "the steps tool shows the example's three records"
    prints tests/steps.sh "$to/steps"
}

# 8. the weights tool: an example with weights under which every rule falls, with some under which two do not, and with one too few; and its files
weights() {
    quiet gcc "${strict[@]}" -Iinclude tools/weights.c "$archive" -o "$to/weights"
    example=examples/finite-show at=$to/finite-show
    for list in '' -flat -short; do
        "$to/weights" "$at/book" "$at/weights$list" "$at/cue" > "$at/tested" || [ -n "$list" ] || fail "the list weights.txt is refused"
        diff "$example/tested$list" "$at/tested" || fail "the list weights$list.txt is told otherwise"
    done
    say "the weights tool tests the example by its three lists"
    prints tests/weights.sh "$to/weights"
}

# 9. the kinds tool: an example that passes, a rule of it that sends a colour to a dimmer, and a cue that does; and its files
kinds() {
    quiet gcc "${strict[@]}" -Iinclude tools/kinds.c "$archive" -o "$to/kinds"
    example=examples/colour-to-dimmer at=$to/colour-to-dimmer
    "$to/kinds" "$at/book" "$at/kinds" "$at/cue" > "$at/tested" || fail "book and cue are refused"
    diff "$example/tested" "$at/tested" || fail "book and cue are told otherwise"
    ! "$to/kinds" "$at/book-sent" "$at/kinds" "$at/cue" > "$at/tested" || fail "a rule that sends a colour to a dimmer is taken"
    diff "$example/tested-rule" "$at/tested" || fail "the rule is told otherwise"
    ! "$to/kinds" "$at/book" "$at/kinds" "$at/cue-sent" > "$at/tested" || fail "a cue that sends a colour to a dimmer is taken"
    diff "$example/tested-cue" "$at/tested" || fail "the cue is told otherwise"
    say "the kinds tool tests the example, its rule and its cue"
    prints tests/kinds.sh "$to/kinds"
}

# 10. the places tool; and each script above says in a line what it needs
places() {
    prints tests/places.sh tools/places
    for script in program check_book steps weights kinds words places; do
        for arguments in '' target/none; do
            status=0
            bash "tests/$script.sh" $arguments > "$to/said" 2>&1 || status=$?
            [ "$status" = 2 ] && [ "$(wc -l < "$to/said")" = 1 ] || fail "tests/$script.sh $arguments does not say in a line what it needs"
        done
    done
}

# 11. the benchmark builds, alone and beside another build of the product, without its replay and with it, and all agree (its times are not looked
# at here)
benchmark() {
    quiet env BUILT=1 bash tests/bench/run.sh 0
    quiet env BUILT=1 bash tests/bench/run.sh 0 "$archive"
    quiet env BUILT=1 bash tests/bench/run.sh 0 "$archive" "$replay"
    say "the benchmark agrees; tests/bench/run.sh shows its times"
}

# a check whose tool is missing has not passed
for tool in rt gcc g++ rustc python3 as ld nm objdump objcopy; do
    command -v "$tool" > /dev/null || fail "the tool $tool is missing"
done

# What parts need and another tool makes comes first, so that none of them makes what another reads. Then what others wait for, and long parts
# before short ones; last the random run, which has two threads and so leaves no processor idle
quiet tools/build expand check_book cue cue_replay
start words
start places
ended words
start programs
start second
start exports
start stack
ended second
start planted
start benchmark
start header
start weights
start kinds
start steps
start random
show exports stack header random planted words programs steps weights kinds places benchmark
say "all is well"
