#!/usr/bin/env bash
# What the program `expand` prints for its two files (01, "The program"; 02, F-2 and F-4): each file missing, long, odd or short, on either side
# of its limits, the book before the cue file, and some answers of every kind.
#     tests/program.sh PROGRAM
set -euo pipefail
. "$(dirname "$0")/files.sh"
answers() { # CASE NUMBERS WORD..
    local name=$1
    shift
    prints "$name" 'number place steps' "$@"
}

# the book's checks, whatever the cue file is
no show.book; no show.cue
prints 'neither file' missing
cue 10 2 3 4
prints 'no book' missing
long_and_odd_books
zeros 42502 > show.book
answers 'a book as long as it may be' '2 0 0'
: > show.book
answers 'an empty book' '1 0 0'
no show.book; mkdir show.book
answers 'a folder for a book: it opens, and has no bytes' '1 0 0'
no show.book

# the cue file's
book; no show.cue
prints 'no cue file' missing
zeros 8195 > show.cue
prints 'a cue file of an odd length, one byte too long' long
zeros 8196 > show.cue
prints 'a cue file two bytes too long' long
zeros 8193 > show.cue
prints 'a cue file one byte below its limit' odd
zeros 1 > show.cue
prints 'a cue file of one byte' odd
: > show.cue
prints 'a cue file without its first word' short
no show.cue; mkdir show.cue
prints 'a folder for a cue file' short
no show.cue
cue 7
answers 'an allowance and no cue' '9 0 0'
zeros 8194 > show.cue
answers 'a cue file as long as it may be' '9 1 0'

# the book before the cue file
no show.cue; zeros 3 > show.book
prints 'an odd book and no cue file' odd
zeros 42503 > show.book
prints 'a long book and no cue file' long
: > show.cue; zeros 3 > show.book
prints 'an odd book and a short cue file' odd
zeros 3 > show.cue; zeros 42503 > show.book
prints 'a long book and an odd cue file' long
no show.book; zeros 8195 > show.cue
prints 'no book and a long cue file' missing
: > show.book; zeros 8195 > show.cue
prints 'a book that will be refused and a long cue file' long

# cases of 01, with the allowance on either side of the steps
book; cue 10 2 3 4
answers 'the example of 01' '0 1 4' 0
cue 4 2 3 4
answers 'C8' '0 1 4' 0
cue 3 2 3 4
answers 'C9' '11 0 3'
cue 1 4
answers 'C7' '0 3 1' 1 0 4
cue 0 4
answers 'C7 with no allowance' '11 0 0'
cue 0
answers 'C12, an empty cue' '9 0 0'
cue 0 2
answers 'C12, a name without its argument' '9 1 0'
cue 0 0 0
answers 'C12, a word too many' '9 1 0'
cue 0 5
answers 'C12, a stranger' '9 0 0'
cue 10 2 3 4; words ${book_b% *} > show.book
answers 'C2' '1 38 0'
book 0
answers 'C3' '8 39 0'
words 0 > show.book
answers 'C6' '2 0 0'

# 02, F-2: levels 3 and 200 are the words 16387 and 16584
book; cue 10 16640 16387 16584
answers 'higher of' '0 1 1' 16584
cue 10 16641 16387 16584
answers 'lower of' '0 1 1' 16387
cue 0 16640 16387 16584
answers 'higher of with no allowance' '11 0 0'
cue 10 16640 16387 0
answers 'higher of a level and flash' '0 3 0' 16640 16387 0
cue 10 1 0 16640 16387 16584
answers 'higher of, held back' '0 5 0' 1 0 16640 16387 16584
cue 10 2 1 16641 16640 16387 16584 16639 4
answers 'the head of a chase that starts with a level' '0 1 3' 16584
cue 0 16639
answers 'a level' '0 1 0' 16639
cue 9 16640 16384 16383
answers 'the word before level 0' '9 2 0'
cue 9 16640 16384
answers 'higher of without its second argument' '9 2 0'
cue 9 16384 16384
answers 'a word after a level' '9 1 0'
words 1 0 1 0 1 3 16641 32769 32768 1 0 > show.book
answers 'a left side that starts with lower of' '15 6 0'
# dim(level 0) to dark, dim(a) to higher of(a, level 3)
words 2 0 1 2 0 2 1 0 2 2 1 16384 1 0 2 1 32768 3 16640 32768 16387 > show.book
cue 9 1 1 16384
answers 'a level on the left, and no level' '0 3 2' 16640 0 16387
cue 9 1 1 16584
answers 'levels on the right' '0 1 4' 16584

# 02, F-4: of level 12, (144 + 127) divided by 255 is level 1; of 200, 40127 by 255 is 157 (16541); of 157, 24776 by 255 is 97 (16481)
book; cue 10 16642 16396
answers 'curve of level 12' '0 1 1' 16385
cue 10 16642 16395
answers 'curve of level 11' '0 1 1' 16384
cue 10 16642 16639
answers 'curve of level 255' '0 1 1' 16639
cue 10 16642 16642 16584
answers 'curve of a curve' '0 1 2' 16481
cue 1 16642 16642 16584
answers 'curve of a curve, one step short' '11 0 1'
cue 10 16642 16640 16387 16584
answers 'curve of higher of' '0 1 2' 16541
cue 10 16642 0
answers 'curve of flash' '0 2 0' 16642 0
cue 10 1 0 16642 16584
answers 'curve, held back' '0 4 0' 1 0 16642 16584
cue 9 16643
answers 'the word after curve' '9 0 0'
cue 9 16642
answers 'curve without its argument' '9 1 0'
cue 9 16642 16384 16384
answers 'a word after the argument of curve' '9 2 0'
words 1 0 1 0 1 2 16642 32768 1 0 > show.book
answers 'a left side that starts with curve' '15 6 0'
# dim(curve(a)) to a, dim(a) to curve(a); dim never evaluates its argument
words 2 0 1 2 0 1 0 2 3 1 16642 32768 1 32768 2 1 32768 2 16642 32768 > show.book
cue 9 1 16584
answers 'curve on the right' '0 1 2' 16541
cue 9 1 16642 16584
answers 'curve on the left' '0 1 1' 16584

# both bytes of a word
book; cue 256 0
answers 'an allowance of 256' '0 1 0' 0
cue 9 256
answers 'a cue of the word 256' '9 0 0'
cue 65535 2 3 4
answers 'the largest allowance' '0 1 4' 0
# names 0 to 255 of no arguments, and no rules: an answer of three digits
words 256 $(printf '0 %.0s' {1..256}) 256 $(printf '0 %.0s' {1..256}) 0 > show.book
cue 0 255
answers 'a word of three digits' '0 1 0' 255

# an answer as long as it may be: name 1 with two arguments, 2,047 of them round 2,048 times name 0
words 2 0 2 2 0 0 0 > show.book
cue 1 $(printf '1 0 %.0s' {1..2047}) 0
answers 'an answer of 4,095 words' '0 4095 0' $(printf '1 0 %.0s' {1..2047}) 0
# d(a) to p(a, a): C15
words 3 0 2 1 3 0 0 2 1 0 1 2 2 32768 3 1 32768 32768 > show.book
cue 100 2 2 2 2 2 2 2 2 2 2 2 2 0
answers 'C15, twelve' '12 0 11'
# then's order 1 2: C13
words 5 0 2 1 1 0 5 0 2 1 2 2 1 0 2 1 0 1 0 3 1 4 3 1 0 4 4 2 1 32768 32769 1 32768 4 3 1 32768 32769 1 32769 > show.book
cue 64 4
answers 'C13' '13 0 64'

all_print 'what 01 says'
