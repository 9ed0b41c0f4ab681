#!/usr/bin/env bash
# What tools/steps.c prints (02, F-3 and F-4), its lines written by hand from 01 and 02: expansions, records that are written, replays of every
# kind, and files that it can't use.
#     tests/steps.sh PROGRAM
set -euo pipefail
. "$(dirname "$0")/files.sh"
heading='step index rule  cue after it'
record() { words "$@" > record; }

# the record that was written
wrote() { # WORD..
    words "$@" > expected
    cmp -s expected written || { printf 'steps: the record that was written is not %s\n' "$*"; wrong=1; }
}
both='show.book show.cue'

# C8: head(rest(chase)); chase is rule 0, head rule 1, rest rule 2
one='   1     2    0  2 3 1 0 4'
two='   2     1    2  2 4'
three='   3     1    0  2 1 0 4'
four='   4     0    1  0'
book; cue 10 2 3 4
shows C8 0 "$both" "$heading" "$one" "$two" "$three" "$four" "$numbers" '0 1 4 taken'
shows 'C8, and its record' 0 "-o written $both" "$heading" "$one" "$two" "$three" "$four" "$numbers" '0 1 4 taken'
wrote 2 0 1 2 1 0 0 1
record 2 0 1 2 1 0 0 1
shows 'C8 again' 0 "$both record" "$heading" "$one" "$two" "$three" "$four" "$numbers" '0 1 4 taken'
cue 3 2 3 4
shows C9 1 "-o written $both" "$heading" "$one" "$two" "$three" "$numbers" '11 0 3 spent'
wrote 2 0 1 2 1 0
record 2 0 1 2 1 0
shows 'its steps again, whatever the allowance' 0 "$both record" "$heading" "$one" "$two" "$three" "$numbers" '0 4 3 taken'
cue 0 2 3 4
shows 'no allowance' 1 "-o written $both" "$heading" "$numbers" '11 0 0 spent'
wrote
shows 'a record without pairs' 0 "$both written" "$heading" "$numbers" '0 3 0 taken'

# pairs that are no step
record 2 0 4 0 1 2
shows 'then holds back its second argument' 1 "$both record" "$heading" "$one" 'pair 1: index 4, rule 0: no step there' "$numbers" '17 1 1 pair'
record 2 0 1
shows 'half a pair' 1 "$both record" "$heading" "$one" 'pair 1: index 1, and no rule: it is half' "$numbers" '17 1 1 pair'
record 1 2
shows 'no rule fits' 1 "$both record" "$heading" 'pair 0: index 1, rule 2: no step there' "$numbers" '17 0 0 pair'
record 65535 65535
shows 'the largest words' 1 "$both record" "$heading" 'pair 0: index 65535, rule 65535: no step there' "$numbers" '17 0 0 pair'

# books and cues that are refused
cue 9 2
shows 'C12, a cue that ends early' 1 "$both" "$heading" "$numbers" '9 1 0 broken cue'
shows 'and its replay' 1 "$both record" "$heading" "$numbers" '9 1 0 broken cue'
book 0
shows 'C3' 1 "$both" "$heading" "$numbers" '8 39 0 surplus'

# higher of(level 1, lower of(level 2, level 3)): 16640 is rule 128, 16641 rule 129
book; cue 9 16640 16385 16641 16386 16387
shows 'levels' 0 "$both" "$heading" '   1     2  129  16640 16385 16386' '   2     0  128  16386' "$numbers" '0 1 2 taken'

# curve(higher of(level 3, curve(level 200))): 16642 is rule 130; level 200 becomes 157 (16541), and that 97 (16481)
cue 9 16642 16640 16387 16642 16584
inner='   1     3  130  16642 16640 16387 16541'
group='   2     1  128  16642 16541'
whole='   3     0  130  16481'
shows 'curves' 0 "-o written $both" "$heading" "$inner" "$group" "$whole" "$numbers" '0 1 3 taken'
wrote 3 130 1 128 0 130
shows 'curves again' 0 "$both written" "$heading" "$inner" "$group" "$whole" "$numbers" '0 1 3 taken'
record 3 130 0 130
shows 'a curve of no level yet' 1 "$both record" "$heading" "$inner" 'pair 1: index 0, rule 130: no step there' "$numbers" '17 1 1 pair'
record 3 130 1 130
shows 'rule 130 at higher of' 1 "$both record" "$heading" "$inner" 'pair 1: index 1, rule 130: no step there' "$numbers" '17 1 1 pair'
record 3 128
shows 'rule 128 at curve' 1 "$both record" "$heading" 'pair 0: index 3, rule 128: no step there' "$numbers" '17 0 0 pair'
cue 9 16642
shows 'curve without its argument' 1 "$both" "$heading" "$numbers" '9 1 0 broken cue'
words 1 0 1 0 1 2 16642 32768 1 0 > show.book
shows 'a left side that starts with curve' 1 "$both" "$heading" "$numbers" '15 6 0 builtin'

# C15 with twelve d: the innermost first; p of two equal parts for each, up to 4,095 words and the d that is left
words 3 0 2 1 3 0 0 2 1 0 1 2 2 32768 3 1 32768 32768 > show.book
cue 99 2 2 2 2 2 2 2 2 2 2 2 2 0
doubled=0
lines=()
for ((k = 1; k <= 11; k++)); do
    doubled="1 $doubled $doubled"
    left=$(printf '2 %.0s' $(seq $((12 - k))))
    lines+=("$(printf '%4d %5d    0  %s' "$k" $((12 - k)) "$left$doubled")")
done
shows 'C15 with twelve' 1 "-o written $both" "$heading" "${lines[@]}" "$numbers" '12 0 11 overlong'
cat written <(words 0 0) > record
shows 'and the step that was not taken' 1 "$both record" "$heading" "${lines[@]}" 'pair 11: index 0, rule 0: the cue would be too long' \
    "$numbers" '12 0 11 overlong'

# files
book; cue 10 2 3 4; record 2 0
refuses 'no book' 'none show.cue' 'none: No such file'
refuses 'no cue' 'show.book none' 'none: No such file'
refuses 'no record' "$both none" 'none: No such file'
refuses 'a folder' '. show.cue' '\.: Is a directory'
zeros 3 > odd
refuses 'an odd book' 'odd show.cue' 'odd: it has an odd number of bytes'
refuses 'an odd record' "$both odd" 'odd: it has an odd number of bytes'
: > empty
refuses 'a cue without its allowance' 'show.book empty' 'empty: its first word'
zeros 42504 > long
refuses 'a long book' 'long show.cue' 'long: it has too many words'
zeros 8196 > long
refuses 'a long cue' 'show.book long' 'long: it has too many words'
zeros 262142 > long
refuses 'a long record' "$both long" 'long: it has too many words'
refuses 'a folder for a record' "-o . $both" '\.: it is no ordinary file'
ln -s /dev/null device
refuses 'a device for a record' "-o device $both" 'device: it is no ordinary file'
refuses 'a record in a folder that is not there' "-o none/record $both" 'none/record.new: No such file'
# no file that is read is written over, under whatever name, and none that happens to have the name of the unfinished one
cp show.book book.before; cp show.cue cue.before; ln -s show.cue link; ln show.book twin
for name in show.book ./show.book twin show.cue link; do
    refuses "a record over $name" "-o $name $both" "$name: it is a file that is read"
done
words 7 7 > mine.new; cp mine.new mine.before
refuses 'a record whose unfinished name is taken' "-o mine $both" 'mine.new: File exists'
still 'the book' show.book book.before
still 'the cue' show.cue cue.before
still 'a file of another name' mine.new mine.before
[ ! -e mine ] || { printf 'steps: a record was written all the same\n'; wrong=1; }
: > written; cue 4 2 3 4
shows 'over an old record' 0 "-o written $both" "$heading" "$one" "$two" "$three" "$four" "$numbers" '0 1 4 taken'
wrote 2 0 1 2 1 0 0 1
[ ! -e written.new ] || { printf 'steps: an unfinished record is left\n'; wrong=1; }
cannot_print 'steps' "$both"
cannot_print 'the help' --help
for arguments in '' 'show.book' '-o record' '-o record show.book' "-o record $both record" "$both record record" '-x show.cue'; do
    refuses "arguments '$arguments'" "$arguments" usage
done
"$program" --help > printed
grep -q '^steps BOOK CUE RECORD' printed || { printf 'steps: --help does not tell how to replay\n'; wrong=1; }
all_print 'their steps'
