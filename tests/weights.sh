#!/usr/bin/env bash
# What tools/weights.c prints (02, F-6), its lines written by hand from 01 and 02: rules that fall and rules that do not, lists that are not lists
# of weights for their book, cues with their weight as the allowance, and files that it can't use.
#     tests/weights.sh PROGRAM
set -euo pipefail
. "$(dirname "$0")/files.sh"
heading='rule  left right'
ones() { printf '\1\0%.0s' $(seq "$1"); } # so many words 1

# book B: flash, then, head, rest, chase. Its chase never ends, and its rule never falls
book; list 1 1 1 1 1
shows 'book B, all names alike' 1 "$bare" "$heading" '   0     1     3  not lighter' '   1     2     0  falls' '   2     2     0  falls' \
    "$numbers" '19 0 0 rising'
list 1 2 4 8 1000
shows 'book B, a heavy chase' 1 "$bare" "$heading" '   0  1000  1003  not lighter' '   1     6     0  falls' '   2    10     0  falls' \
    "$numbers" '19 0 0 rising'

# off, on, toggle: toggle(off) becomes on, toggle(on) off
toggle() { words 3 0 0 1 3 0 0 2 1 0 2 2 2 0 1 1 2 2 1 1 0 > show.book; }
toggle; list 3 7 5
first='   0     8     7  falls'
second='   1    12     3  falls'
shows 'every rule falls' 0 "$bare" "$heading" "$first" "$second" "$numbers" '0 0 0 taken'
list 3 8 5
shows 'a rule stays as heavy' 1 "$bare" "$heading" '   0     8     8  not lighter' '   1    13     3  falls' "$numbers" '19 0 0 rising'
list 8 3 5
shows 'the second rule does' 1 "$bare" "$heading" '   0    13     3  falls' '   1     8     8  not lighter' "$numbers" '19 1 0 rising'
list 9 9 1
shows 'both rules, one of them just so' 0 "$bare" "$heading" '   0    10     9  falls' '   1    10     9  falls' "$numbers" '0 0 0 taken'
list 1000 1000 1000
shows 'the largest weights' 0 "$bare" "$heading" '   0  2000  1000  falls' '   1  2000  1000  falls' "$numbers" '0 0 0 taken'

# cues, whatever their file's allowance: toggle(toggle(toggle(off))) in 3 steps
list 3 7 5; cue 0 2 2 2 0
taken=("$heading" "$first" "$second" "$numbers" '0 0 0 taken')
shows 'a cue' 0 "$full" "${taken[@]}" 'the cue weighs 18, and that is its allowance' "$numbers" '0 1 3 taken' 'the answer weighs 7'
cue 9 1
shows 'a cue that takes no step' 0 "$full" "${taken[@]}" 'the cue weighs 7, and that is its allowance' "$numbers" '0 1 0 taken' 'the answer weighs 7'
cue 0 16640 16385 16386
shows 'a cue that uses all of its weight' 0 "$full" "${taken[@]}" 'the cue weighs 1, and that is its allowance' "$numbers" '0 1 1 taken' 'the answer weighs 0'
cue 9 2
shows 'a cue that ends early' 1 "$full" "${taken[@]}" 'the cue weighs 5, and that is its allowance' "$numbers" '9 1 0 broken cue'
cue 9
shows 'an empty cue' 1 "$full" "${taken[@]}" 'the cue weighs 0, and that is its allowance' "$numbers" '9 0 0 broken cue'
cue 9 3
shows 'a word that is no name' 1 "$full" "${taken[@]}" 'the cue weighs 0, and that is its allowance' "$numbers" '9 0 0 broken cue'
list 3 8 5; cue 9 2 0
shows 'no expansion where a rule rises' 1 "$full" "$heading" '   0     8     8  not lighter' '   1    13     3  falls' "$numbers" '19 0 0 rising'
# 63 and 64 toggles, by weights of which nothing is left over
list 1 1 1
taken=("$heading" '   0     2     1  falls' '   1     2     1  falls' "$numbers" '0 0 0 taken')
cue 0 $(printf '2 %.0s' $(seq 63)) 0
shows '63 toggles' 0 "$full" "${taken[@]}" 'the cue weighs 64, and that is its allowance' "$numbers" '0 1 63 taken' 'the answer weighs 1'
cue 99 $(printf '2 %.0s' $(seq 64)) 0
shows '64 toggles' 1 "$full" "${taken[@]}" 'the cue weighs 65, and that is its allowance' "$numbers" '13 0 0 nested'

# C15's d(a) to p(a, a): no weights mend it
words 3 0 2 1 3 0 0 2 1 0 1 2 2 32768 3 1 32768 32768 > show.book
list 1 1 2
shows 'C15' 1 "$bare" "$heading" '   0     2     1  placeholder 0 from 1 to 2' "$numbers" '19 0 0 rising'
list 1 1 1000
shows 'C15, a heavy d' 1 "$bare" "$heading" '   0  1000     1  placeholder 0 from 1 to 2' "$numbers" '19 0 0 rising'
list 1 1 1
shows 'C15, both reasons' 1 "$bare" "$heading" '   0     1     1  not lighter, placeholder 0 from 1 to 2' "$numbers" '19 0 0 rising'
# z, p(x, y), t(x, y, z): t(a, b, c) to p(c, p(b, a)), to p(p(c, a), p(c, a)), to p(b, p(b, b)), and to z
three='4 2 32768 32769 32770'
words 3 0 2 3 3 0 0 1 0 4 $three 5 1 32770 1 32769 32768 $three 7 1 1 32770 32768 1 32770 32768 $three 5 1 32769 1 32769 32769 $three 1 0 > show.book
list 1 1 4
shows 'placeholders in another order, twice, three times, and dropped' 1 "$bare" "$heading" '   0     4     2  falls' \
    '   1     4     3  placeholder 0 from 1 to 2, placeholder 2 from 1 to 2' '   2     4     2  placeholder 1 from 1 to 3' '   3     4     1  falls' \
    "$numbers" '19 1 0 rising'
list 3 2 3
shows 'every reason' 1 "$bare" "$heading" '   0     3     4  not lighter' '   1     3     6  not lighter, placeholder 0 from 1 to 2, placeholder 2 from 1 to 2' \
    '   2     3     4  not lighter, placeholder 1 from 1 to 3' '   3     3     3  not lighter' "$numbers" '19 0 0 rising'
# z, p of eight, q(x, y): p(p(0 to 7), p(8 to 15), z, z, z, z, z, z) to q(15, 15)
words 3 0 8 2 3 0 0 0 1 25 1 1 $(seq 32768 32775) 1 $(seq 32776 32783) 0 0 0 0 0 0 3 2 32783 32783 > show.book
list 1 1 1
shows 'the last placeholder' 1 "$bare" "$heading" '   0     9     1  placeholder 15 from 1 to 2' "$numbers" '19 0 0 rising'

# 02, F-7: "a placeholder may be on the right as often as on the left". z, p(x, y), s(x, y): s(a, a) to p(a, a), to p(a, p(a, a)), and
# s(p(a, b), a) to p(a, p(b, a)) and to p(b, p(b, a))
words 3 0 2 2 3 0 0 1 0 4 3 2 32768 32768 3 1 32768 32768 3 2 32768 32768 5 1 32768 1 32768 32768 5 2 1 32768 32769 32768 5 1 32768 1 32769 32768 \
    5 2 1 32768 32769 32768 5 1 32769 1 32769 32768 > show.book
list 1 1 3
shows 'placeholders twice on the left' 1 "$bare" "$heading" '   0     3     1  falls' '   1     3     2  placeholder 0 from 2 to 3' '   2     4     2  falls' \
    '   3     4     2  placeholder 1 from 1 to 2' "$numbers" '19 1 0 rising'
words 3 0 2 2 3 0 0 3 1 2 0 1 3 2 32768 32768 3 1 32768 32768 > show.book
list 1 1 2; cue 0 2 2 0 0 2 0 0
shows 'a cue of twins' 0 "$full" "$heading" '   0     2     1  falls' "$numbers" '0 0 0 taken' 'the cue weighs 10, and that is its allowance' "$numbers" \
    '0 7 3 taken' 'the answer weighs 7'

# f(x), and what no book lists: f(higher of(a, b)) to higher of(a, b), f(level 255) to level 0, f(a) to lower of(a, level 6), f(a) to
# curve(curve(a)), f(a) to higher of(lower of(a, level 0), level 0)
words 1 1 1 2 1 0 5 4 0 16640 32768 32769 3 16640 32768 32769 2 0 16639 1 16384 2 0 32768 3 16641 32768 16390 2 0 32768 3 16642 16642 32768 \
    2 0 32768 5 16640 16641 32768 16384 16384 > show.book
list 2
shows 'levels and built-in words' 1 "$bare" "$heading" '   0     3     1  falls' '   1     2     0  falls' '   2     2     1  falls' \
    '   3     2     2  not lighter' '   4     2     2  not lighter' "$numbers" '19 3 0 rising'
# f(f(level 200)): lower of(level 200, level 6), and that once more, two steps each; two of the weight are left over
list 3; cue 0 0 0 16584
shows 'levels in a cue' 0 "$full" "$heading" '   0     4     1  falls' '   1     3     0  falls' '   2     3     1  falls' '   3     3     2  falls' \
    '   4     3     2  falls' "$numbers" '0 0 0 taken' 'the cue weighs 6, and that is its allowance' "$numbers" '0 1 4 taken' 'the answer weighs 0'

# z and s(x) with a rule whose sides are the longest, s 63 times and 62 times round z; and without rules
nest() { printf '1 %.0s' $(seq "$1"); }
words 2 0 1 2 0 0 1 64 $(nest 63) 0 63 $(nest 62) 0 > show.book
list 1000 1000
shows 'long sides' 0 "$bare" "$heading" '   0 64000 63000  falls' "$numbers" '0 0 0 taken'
words 2 0 1 2 0 0 0 > show.book
shows 'no rules' 0 "$bare" "$heading" "$numbers" '0 0 0 taken'
{ words 0; ones 4095; words 0; } > show.cue
shows 'the heaviest cue' 0 "$full" "$heading" "$numbers" '0 0 0 taken' 'the cue weighs 4096000, and that is its allowance' "$numbers" '0 4096 0 taken' \
    'the answer weighs 4096000'
# z, s(x), p(x, y), f(x): f(a) to p(z, a), a word longer
words 4 0 1 2 1 4 0 0 0 1 0 1 2 3 32768 3 2 0 32768 > show.book
list 1 1000 1 3
taken=("$heading" '   0     3     2  falls' "$numbers" '0 0 0 taken')
{ words 0 3; ones 4093; words 0; } > show.cue
shows 'a cue as long as can be after its step' 0 "$full" "${taken[@]}" 'the cue weighs 4093004, and that is its allowance' "$numbers" '0 4096 1 taken' \
    'the answer weighs 4093003'
{ words 0 3; ones 4094; words 0; } > show.cue
shows 'a cue that would be too long' 1 "$full" "${taken[@]}" 'the cue weighs 4094004, and that is its allowance' "$numbers" '12 0 0 overlong'

# names 0 to 128, each of which but 0 becomes the one before it, and 129 of two arguments: the most rules, and more steps than a word counts
chain=()
weights=()
lines=()
for ((k = 0; k < 128; k++)); do
    chain+=(1 $((k + 1)) 1 "$k")
    weights+=($((k + 1)))
    lines+=("$(printf '%4d %5d %5d  falls' "$k" $((k + 2)) $((k + 1)))")
done
words 130 $(printf '0 %.0s' $(seq 129)) 2 130 $(printf '1 0 %.0s' $(seq 129)) 2 1 2 128 "${chain[@]}" > show.book
list "${weights[@]}" 129 1
words 128 > tree
for ((k = 0; k < 11; k++)); do
    { words 129; cat tree tree; } > larger
    mv larger tree
done
{ words 0; cat tree; } > show.cue
shows '2,048 names of 128 steps each' 0 "$full" "$heading" "${lines[@]}" "$numbers" '0 0 0 taken' \
    'the cue weighs 266239, and that is its allowance' "$numbers" '0 4095 262144 taken' 'the answer weighs 4095'
list "${weights[@]}" 128 1
lines[127]=' 127   128   128  not lighter'
shows 'the last rule' 1 "$bare" "$heading" "${lines[@]}" "$numbers" '19 127 0 rising'

# lists that are not lists of weights for their book, before the rules are looked at
toggle; cue 9 2 0
list 3 7
shows 'a weight too few' 1 "$full" 'names 3, weights 2' "$numbers" '18 0 0 weights'
list 3 7 5 1
shows 'a weight too many' 1 "$bare" 'names 3, weights 4' "$numbers" '18 0 0 weights'
list
shows 'no weights' 1 "$bare" 'names 3, weights 0' "$numbers" '18 0 0 weights'
list 0 1001
shows 'too few, and they are out of range' 1 "$bare" 'names 3, weights 2' "$numbers" '18 0 0 weights'
ones 256 > list
shows 'a weight for each of the most names' 1 "$bare" 'names 3, weights 256' "$numbers" '18 0 0 weights'
list 1000 0 1
shows 'a weight of 0' 1 "$full" 'name 1 weighs 0, not 1 to 1000' "$numbers" '18 0 0 weights'
list 1001 1 65535
shows 'weights too large' 1 "$bare" 'name 0 weighs 1001, not 1 to 1000' 'name 2 weighs 65535, not 1 to 1000' "$numbers" '18 0 0 weights'
book; list 1 1 1 1 0
shows 'a weight of 0, and a rule that rises' 1 "$bare" 'name 4 weighs 0, not 1 to 1000' "$numbers" '18 0 0 weights'

# books that are refused, before the list is looked at
book 0
shows 'C3' 1 "$full" "$numbers" '8 39 0 surplus'
: > show.book
shows 'C5' 1 "$bare" "$numbers" '1 0 0 short'
zeros 42502 > show.book
shows 'a book of the most words' 1 "$bare" "$numbers" '2 0 0 count'
words 1 0 1 0 1 2 16642 32768 1 0 > show.book
shows 'a left side that starts with curve' 1 "$bare" "$numbers" '15 6 0 builtin'

# files
toggle; list 3 7 5; cue 9 2 0
refuses 'no book' 'none list' 'none: No such file'
refuses 'no weights' 'show.book none' 'none: No such file'
refuses 'no cue' "$bare none" 'none: No such file'
refuses 'a folder' "show.book ." '\.: Is a directory'
zeros 3 > odd
refuses 'an odd book' 'odd list' 'odd: it has an odd number of bytes'
refuses 'odd weights' 'show.book odd' 'odd: it has an odd number of bytes'
refuses 'an odd cue' "$bare odd" 'odd: it has an odd number of bytes'
: > empty
refuses 'a cue without its allowance' "$bare empty" 'empty: its first word'
zeros 42504 > long
refuses 'a long book' 'long list' 'long: it has too many words'
zeros 514 > long
refuses 'a long list' 'show.book long' 'long: it has too many words'
zeros 8196 > long
refuses 'a long cue' "$bare long" 'long: it has too many words'
cannot_print 'a list that falls, and a cue' "$full"
cannot_print 'the help' --help
list 3 8 5
cannot_print 'a list that does not fall' "$bare"
refuses 'no cue, and a rule that rises' "$bare none" 'none: No such file'
for arguments in '' 'show.book' "$full show.cue" "-x show.book list" '--help list'; do
    refuses "arguments '$arguments'" "$arguments" usage
done
"$program" --help > printed
grep -q '^weights BOOK WEIGHTS CUE' printed || { printf 'weights: --help does not tell of cues\n'; wrong=1; }
all_print 'what their rules weigh'
