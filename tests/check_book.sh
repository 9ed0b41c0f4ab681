#!/usr/bin/env bash
# What the program `check_book` prints for show.book: a file missing, long or odd, each number of the reader with its place and sentence
# (01, "The table of numbers"; 02, F-2 and F-4), and the order test, passed and failed.
#     tests/check_book.sh PROGRAM
set -euo pipefail
. "$(dirname "$0")/files.sh"
b=($book_b)

passes='order test: taken, every name passes'
fails() { printf 'order test: unsettled at name %s: its order holds no 0, or an entry after the last 0 is not idle' "$1"; }
# a book by its words, and the one line that it gets: the table's word, the place, and the table's sentence
refused() { # CASE WORD PLACE SENTENCE WORDS..
    words "${@:5}" > show.book
    prints "$1" "show.book: $2 at word $3: $4"
}
taken() { # CASE LENGTH LINE WORDS..
    words "${@:4}" > show.book
    prints "$1" "show.book: taken, $2 words" "$3"
}

# the file
no show.book
prints 'no book' missing
long_and_odd_books
zeros 1 > show.book
prints 'a book of one byte' odd

# 1 to 8, and 15
short='a word the book needs is missing'
refused 'C5, an empty book' short 0 "$short"
refused 'C2, book B without its last word' short 38 "$short" ${book_b% *}
no show.book; mkdir show.book
prints 'a folder for a book: it opens, and has no bytes' "show.book: short at word 0: $short"
no show.book
count='a count or length outside its range'
refused 'C6, no names' count 0 "$count" 0
refused '257 names' count 0 "$count" 257
refused 'a name with nine arguments' count 1 "$count" 1 9
refused 'two names and one order' count 3 "$count" 2 0 0 1
zeros 42502 > show.book
prints 'a book as long as it may be' "show.book: count at word 0: $count"
refused 'an order that asks for an argument that is not there' entry 4 'an order entry above the argument count' 1 0 1 1 1 0
stranger="a side's word is neither name nor placeholder"
refused 'a left side of a name that is not there' stranger 6 "$stranger" 1 0 1 0 1 1 1 1 0
ragged='a side is complete too early, or not at its last word'
refused 'a left side of two cues' ragged 7 "$ragged" 1 0 1 0 1 2 0 0 1 0
refused 'a left side without its argument: the word after it' ragged 7 "$ragged" 1 1 1 0 1 1 0
refused 'a left side that is a placeholder' headless 6 'a left side starts with a placeholder' 1 0 1 0 1 1 32768 1 0
stray='a left placeholder is above the count of different ones before it, or a right one is not in the left'
refused 'word 29 of book B made 32770' stray 29 "$stray" "${b[@]:0:29}" 32770 "${b[@]:30}"
# name 0 of four arguments: a, a, and then c, which is the next but one
refused 'a placeholder again, and one too many' stray 9 "$stray" 1 4 1 0 1 5 0 32768 32768 32770 32768 1 0
refused 'placeholder 1 before 0' stray 7 "$stray" 1 1 1 0 1 2 0 32769 1 0
refused 'a placeholder on the right alone' stray 8 "$stray" 1 0 1 0 1 1 0 1 32768
# 02, F-2 and F-4: 15, checked where 6 is; 4 for the words next to levels and built-in words
builtin='a left side starts with a level or a built-in word'
refused 'a left side that is level 0' builtin 6 "$builtin" 1 0 1 0 1 1 16384 1 0
refused 'a left side that is level 255' builtin 6 "$builtin" 1 0 1 0 1 1 16639 1 0
refused 'a left side that starts with higher of' builtin 6 "$builtin" 1 0 1 0 1 3 16640 32768 32769 1 32768
refused 'a left side that starts with lower of' builtin 6 "$builtin" 1 0 1 0 1 3 16641 16384 16385 1 16384
refused 'higher of before placeholder 1, which comes before 0' builtin 6 "$builtin" 1 0 1 0 1 3 16640 32769 32768 1 0
refused 'lower of without its arguments' builtin 6 "$builtin" 1 0 1 0 1 1 16641 1 0
refused 'a level at the start of the second rule' builtin 10 "$builtin" 1 0 1 0 2 1 0 1 0 1 16384 1 0
refused 'the word before level 0' stranger 6 "$stranger" 1 0 1 0 1 1 16383 1 0
refused 'a left side that starts with curve' builtin 6 "$builtin" 1 0 1 0 1 2 16642 32768 1 32768
refused 'curve before placeholder 1' builtin 6 "$builtin" 1 0 1 0 1 2 16642 32769 1 0
refused 'curve without its argument' builtin 6 "$builtin" 1 0 1 0 1 1 16642 1 0
refused 'curve at the start of the second rule' builtin 10 "$builtin" 1 0 1 0 2 1 0 1 0 2 16642 16384 1 0
refused 'curve without its argument, on the right' ragged 9 "$ragged" 1 0 1 0 1 1 0 1 16642
refused 'the word after curve' stranger 6 "$stranger" 1 0 1 0 1 1 16643 1 0
refused 'the word after curve, on the right' stranger 8 "$stranger" 1 0 1 0 1 1 0 1 16643
surplus='words after the last rule'
refused 'C3, book B with one word more' surplus 39 "$surplus" $book_b 0
refused 'a word after no rules' surplus 5 "$surplus" 1 0 1 0 0 7

# taken, and the order test
taken 'C1, book B' 39 "$passes" $book_b
taken 'one name and no rules' 5 "$passes" 1 0 1 0 0
taken '256 names' 515 "$passes" 256 $(printf '0 %.0s' {1..256}) 256 $(printf '0 %.0s' {1..256}) 0
taken 'C10, the order of head 0 1' 39 "$(fails 2)" "${b[@]:0:11}" 0 1 "${b[@]:13}"
taken 'a rule for a name whose order is empty' 9 "$(fails 0)" 1 0 1 0 1 1 0 1 0
# 02, F-7: "Case C4 becomes: taken, place 39", and a placeholder that its left side holds twice is not idle
taken 'C4, word 29 of book B made 32768' 39 "$passes" "${b[@]:0:29}" 32768 "${b[@]:30}"
taken 'same(a, a), evaluated before the 0' 16 "$passes" 2 0 2 2 0 3 1 2 0 1 3 1 32768 32768 1 0
taken 'same(a, a), evaluated after the 0' 15 "$(fails 1)" 2 0 2 2 0 2 0 2 1 3 1 32768 32768 1 0
taken 'same(a, b), evaluated after the 0' 15 "$passes" 2 0 2 2 0 2 0 2 1 3 1 32768 32769 1 0
taken 'a, a and b, in this order' 13 "$passes" 1 3 1 1 0 1 4 0 32768 32768 32769 1 32769
taken 'an idle argument after the last 0' 14 "$passes" 2 0 1 2 0 2 0 1 1 2 1 32768 1 0
# 02, F-1: the lowest-numbered name that fails
mend() { taken "$1" "$2" "$3" 5 0 0 1 1 2 5 0 0 "${@:4}" 2 1 2 4 2 2 0 1 1 2 2 1 1 0 2 3 0 3 4 0 0 2 3 1 3 4 1 1; }
mend 'two orders that miss a rule' 42 "$(fails 2)" 2 0 1 1 1
mend 'the first of them mended' 42 "$(fails 3)" 2 1 0 1 1
mend 'the second of them mended' 43 "$(fails 2)" 2 0 1 2 1 0
mend 'both mended' 43 "$passes" 2 1 0 2 1 0
taken 'C10, and the order of rest 0 1 too' 39 "$(fails 2)" "${b[@]:0:11}" 0 1 2 0 1 "${b[@]:16}"
taken 'one that is not idle' 14 "$(fails 1)" 2 0 1 2 0 2 0 1 1 2 1 0 1 0
# 02, F-2: levels and built-in words on both sides; neither is a placeholder, so an argument that has to be one is not idle
taken 'dim(level 3) to level 200' 14 "$passes" 2 0 1 2 0 2 1 0 1 2 1 16387 1 16584
taken 'the same, evaluated after the last 0' 14 "$(fails 1)" 2 0 1 2 0 2 0 1 1 2 1 16387 1 16584
taken 'dim(higher of(a, b)) to lower of(a, b)' 18 "$passes" 2 0 1 2 0 2 1 0 1 4 1 16640 32768 32769 3 16641 32768 32769
taken 'the same, evaluated after the last 0' 18 "$(fails 1)" 2 0 1 2 0 2 0 1 1 4 1 16640 32768 32769 3 16641 32768 32769
# 02, F-4: the same of the curve
taken 'dim(curve(a)) to curve(a)' 16 "$passes" 2 0 1 2 0 2 1 0 1 3 1 16642 32768 2 16642 32768
taken 'the same, evaluated after the last 0' 16 "$(fails 1)" 2 0 1 2 0 2 0 1 1 3 1 16642 32768 2 16642 32768
taken 'dim(a) to curve(a), evaluated after the last 0' 15 "$passes" 2 0 1 2 0 2 0 1 1 2 1 32768 2 16642 32768

all_print "01's words"
