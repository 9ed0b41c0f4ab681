#!/usr/bin/env bash
# What tools/kinds.c prints (02, F-8), its lines written by hand from 01 and 02: rules that pass and rules that do not, lists that are not lists of
# kinds for their book, cues, and files that it can't use.
#     tests/kinds.sh PROGRAM
set -euo pipefail
. "$(dirname "$0")/files.sh"
heading='rule kind'
# a line of a word: its index, what it is, its kind, and that of its place
at() { printf '           word %s: %s is kind %s, in a place of kind %s' "$@"; }

# book B: flash is a 1, then(1, 2) a 2, head(2) a 1, rest(2) a 2, chase a 2. Its rules start at 19, 25 and 32
book; list 1 2 1 2 1 2 2 2 2
pass=("$heading" '   0    2  passes' '   1    1  passes' '   2    2  passes')
shows 'book B' 0 "$bare" "${pass[@]}" "$numbers" '0 0 0 taken'
cue 9 2 3 4
shows 'head(rest(chase))' 0 "$full" "${pass[@]}" ' cue    1  passes' "$numbers" '0 0 0 taken'
cue 9 1 0 4
shows 'then(flash, chase)' 0 "$full" "${pass[@]}" ' cue    2  passes' "$numbers" '0 0 0 taken'
cue 9 1 4 0
shows 'then(chase, flash)' 1 "$full" "${pass[@]}" ' cue    2  fails' "$(at 1 'name 4' 2 1)" "$(at 2 'name 0' 1 2)" "$numbers" '22 0 0 ill cue'
cue 9 2 2 1 0 4
shows 'head(head(then(flash, chase)))' 1 "$full" "${pass[@]}" ' cue    1  fails' "$(at 1 'name 2' 1 2)" "$numbers" '22 0 0 ill cue'
cue 9 16640 16387 0
shows 'higher of(level 3, flash)' 1 "$full" "${pass[@]}" ' cue    0  fails' "$(at 2 'name 0' 1 0)" "$numbers" '22 0 0 ill cue'
cue 9 1 16642 16387 4
shows 'then(curve(level 3), chase)' 1 "$full" "${pass[@]}" ' cue    2  fails' "$(at 1 'curve' 0 1)" "$numbers" '22 0 0 ill cue'
cue 9 2 16641 16639 16640 16384 16384
shows 'head(lower of(level 255, higher of(level 0, level 0)))' 1 "$full" "${pass[@]}" ' cue    1  fails' "$(at 1 'lower of' 0 2)" "$numbers" '22 0 0 ill cue'
cue 9 16384
shows 'a level' 0 "$full" "${pass[@]}" ' cue    0  passes' "$numbers" '0 0 0 taken'
# a broken cue has no line
cue 9 2
shows 'a cue that ends early' 1 "$full" "${pass[@]}" "$numbers" '9 1 0 broken cue'
cue 9
shows 'an empty cue' 1 "$full" "${pass[@]}" "$numbers" '9 0 0 broken cue'
cue 9 2 0 0
shows 'a cue of a word too many, of another kind before it' 1 "$full" "${pass[@]}" "$numbers" '9 2 0 broken cue'

# chase is a 1: rule 0, chase to then(flash, chase), with its words at 20 and from 22 on
list 1 2 1 2 1 2 2 2 1
shows 'chase of another kind' 1 "$bare" "$heading" '   0    1  fails' "$(at 22 'name 1' 2 1)" "$(at 24 'name 4' 1 2)" '   1    1  passes' '   2    2  passes' \
    "$numbers" '21 0 0 ill rule'
# head is a 2, rest a 1: rule 1, head(then(a, b)) to a, with its words from 26 on and at 31, and rule 2 to b, at 38
list 1 2 1 2 2 2 1 2 2
cue 9 2 0
shows 'head and rest exchanged; the cue is not looked at' 1 "$full" "$heading" '   0    2  passes' '   1    2  fails' "$(at 31 'placeholder 0' 1 2)" \
    '   2    1  fails' "$(at 38 'placeholder 1' 2 1)" "$numbers" '21 1 0 ill rule'
# rest takes a 1: then, a 2, stands there on the left
list 1 2 1 2 1 2 2 1 2
shows 'a left side' 1 "$bare" "$heading" '   0    2  passes' '   1    1  passes' '   2    2  fails' "$(at 34 'name 1' 2 1)" "$numbers" '21 2 0 ill rule'

# z, p(x, y), s(x): p(a, a) to z, with its words from 10 on; p takes a 1 and a 2, then a 1 and a 1
words 3 0 2 1 3 0 0 0 1 3 1 32768 32768 1 0 > show.book
list 5 5 1 2 5 1
shows 'a placeholder with two kinds' 1 "$bare" "$heading" '   0    5  fails' "$(at 12 'placeholder 0' 1 2)" "$numbers" '21 0 0 ill rule'
list 5 5 1 1 5 1
shows 'a placeholder with one kind' 0 "$bare" "$heading" '   0    5  passes' "$numbers" '0 0 0 taken'
# s(a) to s(level 7), to curve(a), and s(higher of(a, b)) to s(b): s takes a level
words 3 0 2 1 3 0 0 0 3 2 2 32768 2 2 16391 2 2 32768 2 16642 32768 4 2 16640 32768 32769 2 2 32769 > show.book
list 5 5 1 1 0 0
shows 'levels and built-in words' 0 "$bare" "$heading" '   0    0  passes' '   1    0  passes' '   2    0  passes' "$numbers" '0 0 0 taken'
# it takes a 1: a level is no 1, curve makes a 0 and not a 5, and takes no 1; of higher of(a, b) a and b are levels
list 5 5 1 1 5 1
shows 'they are kind 0 throughout' 1 "$bare" "$heading" '   0    5  fails' "$(at 14 'level 7' 0 1)" '   1    5  fails' "$(at 19 'curve' 0 5)" \
    "$(at 20 'placeholder 0' 1 0)" '   2    5  fails' "$(at 23 'higher of' 0 1)" "$(at 28 'placeholder 1' 0 1)" "$numbers" '21 0 0 ill rule'

# z and s(x), without rules: 4,096 words of them, all of the largest kind, and the last of another
words 2 0 1 2 0 0 0 > show.book
list 63 63 63
{ words 0; printf '\1\0%.0s' $(seq 4095); words 0; } > show.cue
shows 'the longest cue' 0 "$full" "$heading" ' cue   63  passes' "$numbers" '0 0 0 taken'
list 62 63 63
shows 'the longest cue, its last word of another kind' 1 "$full" "$heading" ' cue   63  fails' "$(at 4095 'name 0' 62 63)" "$numbers" '22 0 0 ill cue'
{ words 0; printf '\1\0%.0s' $(seq 4096); } > show.cue
shows 'a cue too deep for 4,096 words' 1 "$full" "$heading" "$numbers" '9 4096 0 broken cue'

# lists that are not lists of kinds for their book, before the rules and the cue are looked at. Book B has 5 names and 4 arguments
book; cue 9 2
list 1 2 1 2 1 2 2 2
shows 'a kind too few' 1 "$full" 'names and arguments 9, kinds 8' "$numbers" '20 0 0 kinds'
list 1 2 1 2 1 2 2 2 2 2
shows 'a kind too many' 1 "$bare" 'names and arguments 9, kinds 10' "$numbers" '20 0 0 kinds'
list
shows 'no kinds' 1 "$bare" 'names and arguments 9, kinds 0' "$numbers" '20 0 0 kinds'
list 64 2 1 2 1 2 2 2 65535
shows 'outcomes that are no kinds' 1 "$bare" 'name 0, outcome: kind 64, not 0 to 63' 'name 4, outcome: kind 65535, not 0 to 63' "$numbers" '20 0 0 kinds'
list 1 2 1 64 1 100 2 2 2
shows 'arguments that are none' 1 "$bare" 'name 1, argument 2: kind 64, not 0 to 63' 'name 2, argument 1: kind 100, not 0 to 63' "$numbers" '20 0 0 kinds'

# books that are refused, before the list is looked at
book 0
shows 'C3' 1 "$full" "$numbers" '8 39 0 surplus'
: > show.book
shows 'C5' 1 "$bare" "$numbers" '1 0 0 short'
zeros 42502 > show.book
shows 'a book of the most words' 1 "$bare" "$numbers" '2 0 0 count'

# files
book; list 1 2 1 2 1 2 2 2 2; cue 9 2 3 4
refuses 'no book' 'none list' 'none: No such file'
refuses 'no kinds' 'show.book none' 'none: No such file'
refuses 'no cue' "$bare none" 'none: No such file'
refuses 'a folder' "show.book ." '\.: Is a directory'
zeros 3 > odd
refuses 'an odd book' 'odd list' 'odd: it has an odd number of bytes'
refuses 'odd kinds' 'show.book odd' 'odd: it has an odd number of bytes'
refuses 'an odd cue' "$bare odd" 'odd: it has an odd number of bytes'
: > empty
refuses 'a cue without its allowance' "$bare empty" 'empty: its first word'
zeros 42504 > long
refuses 'a long book' 'long list' 'long: it has too many words'
zeros 4610 > long
refuses 'a long list' 'show.book long' 'long: it has too many words'
zeros 8196 > long
refuses 'a long cue' "$bare long" 'long: it has too many words'
cannot_print 'a book and a cue' "$full"
cannot_print 'the help' --help
for arguments in '' 'show.book' "$full show.cue" "-x show.book list" '--help list'; do
    refuses "arguments '$arguments'" "$arguments" usage
done
"$program" --help > printed
grep -q '^kinds BOOK KINDS CUE' printed || { printf 'kinds: --help does not tell of cues\n'; wrong=1; }
all_print 'which words have which kind'
