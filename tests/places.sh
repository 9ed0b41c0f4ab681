#!/usr/bin/env bash
# That tools/places removes nothing but what it wrote itself, whatever it is asked for, works in the repository from any folder, and hands on what
# rt check says.
#     tests/places.sh PROGRAM
set -euo pipefail
. "$(dirname "$0")/files.sh"
top=$(dirname "$program")/..

# a path for a crate, here and at the repository's top
mkdir -p target/places target/outside/mine "$top/target/places" "$top/target/outside/mine"
for crate in ../outside/mine '' nothing; do
    cases=$((cases + 1))
    got=0
    "$program" "$crate" clear > printed 2> said || got=$?
    if [ "$got" != 2 ] || [ "$(cat said)" != "places: crates.txt has no crate $crate" ]; then
        printf 'places: the crate %s: exit status %s, and it says\n' "'$crate'" "$got"
        sed 's/^/    /' printed said
        wrong=1
    fi
done
cases=$((cases + 1))
[ -d target/outside/mine ] && [ -d "$top/target/outside/mine" ] && [ -d "$top/target/places" ] ||
    { printf 'places: a folder that is not its own is gone\n'; wrong=1; }
rm -r target

# a function that is there, from here: a line for each goal, with its place in the source, from a step back to the start
cases=$((cases + 1))
"$program" rows lengths/hop > printed 2> said || true
loop=$(grep -n 'for _ in' "$top/crates/rows/src/lengths.rt" | tail -n 1 | cut -d: -f1)
back='[0-9]:length_at-at [0-9]:if-n-at [0-9]:loop-test [0-9]:loop [0-9]:words-n ([0-9]:[^ ]+ )*[0-9]:start'
if ! grep -qxE "loop-preserved: src/lengths\.rt:$loop:[0-9]+ ([0-9]:[^ ]+ )*$back" printed || [ -s said ] || [ -e target ] ||
    grep -vqE '^[^ :]+: src/lengths\.rt:[0-9]+:[0-9]+( [0-9]+:[^ ]+)* [0-9]+:start$' printed; then
    printf 'places: from another folder: it should print the goals of rows::lengths::hop, and make no folder there; it prints\n'
    sed 's/^/    /' printed said
    wrong=1
fi
refuses 'no function' 'buffers nothing' 'buffers has no function nothing that is covered; rt check says: .'
refuses 'no goal' 'buffers clear nothing' 'clear has no goal nothing'
all_print 'their places, and no folder was lost'
