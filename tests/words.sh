#!/usr/bin/env bash
# What tools/words makes of texts and of files of words: there and back, what it refuses, and that it never destroys a file. All is written by
# hand from its help text.
#     tests/words.sh PROGRAM
set -euo pipefail
. "$(dirname "$0")/files.sh"
started_once
text() { printf "$1" > show.txt; }
# a text that is packed into these words, and the words a line each by unpack
packs() { # CASE WORD..
    local name=$1
    shift
    rm -f packed
    run /dev/null 'pack show.txt packed'
    words "$@" > wanted
    still "$name" packed wanted
    shows "$name, and back" 0 'unpack packed' "$@"
}
gone() { # CASE FILE
    cases=$((cases + 1))
    [ ! -e "$2" ] || { printf 'words: %s: %s is still there\n' "$1" "$2"; wrong=1; }
}

# there and back
text '1 2\n3 # 4\n\n  5\t6\n'
packs 'words and a comment' 1 2 3 5 6
text '7'
packs 'a last line without an end' 7
text '0 65535 00012 256'
packs 'the largest word, and zeros before one' 0 65535 12 256
text '1\r\n2 # a\r\n3\r\n'
packs 'lines that end with both' 1 2 3
text '1\r2 # a\r3\r'
packs 'lines that end with a carriage return' 1 2 3
text '\xef\xbb\xbf1 2\n'
packs 'a byte order mark' 1 2
# line and paragraph separator, vertical tab, form feed, file, group and record separator, next line: none of them ends a comment
for sign in '\xe2\x80\xa8' '\xe2\x80\xa9' '\v' '\f' '\x1c' '\x1d' '\x1e' '\xc2\x85'; do
    text "1 # one${sign}2\n3\n"
    packs "a comment with $sign in it" 1 3
done
text "$(printf '0%.0s' $(seq 5000))9"
packs 'five thousand zeros before a word' 9

# texts that are no words: the file's name and the line are told
for bad in 65536 -1 1x 0x10 1.5 1,2 ² ٣ 65536000000; do
    text "2 3\n4 $bad 5\n"
    refuses "the word $bad" 'pack show.txt none' "show.txt: line 2: '$bad' is not a word"
    gone "the word $bad" none
done
text "1\n$(printf '9%.0s' $(seq 5000))\n"
refuses 'five thousand digits' 'pack show.txt none' "show.txt: line 2: '9*' is not a word"
text '1 \xef\xbb\xbf2\n'
refuses 'a byte order mark inside' 'pack show.txt none' "show.txt: line 1: '.ufeff2' is not a word"
text '1 \xff\xfe\n'
refuses 'no UTF-8' 'pack show.txt none' 'show.txt is no text'
refuses 'no text of that name' 'pack none packed' 'none: No such file'
refuses 'a folder for a text' 'pack . packed' '\.: Is a directory'
zeros 3 > odd
refuses 'an odd file' 'unpack odd' 'odd has an odd number of bytes'
for arguments in '' pack 'pack show.txt' 'pack a b c' unpack 'unpack a b c' where 'where a' 'where a rules 1' 'where a name 1 2' turn; do
    refuses "arguments '$arguments'" "$arguments" usage
done
"$program" --help > printed
grep -q 'words where TEXT rule N' printed || { printf 'words: --help does not tell of rules\n'; wrong=1; }
words 1 2 3 > packed
cannot_print 'words' 'unpack packed'
cannot_print 'the help' --help

# names swapped, one name twice, a text for the words: nothing is written, and nothing is lost. The text is a right one, then one with a typo
for last in 4 four; do
    printf '1 2 # mine\n%s\n' "$last" > book.txt
    words 1 2 > show.book
    cp book.txt text.before; cp show.book words.before; ln -f book.txt twin; ln -sf book.txt link
    refuses "names swapped, $last" 'pack show.book book.txt' 'book.txt looks like a text'
    refuses "unpack to a text, $last" 'unpack show.book book.txt' 'book.txt is there already'
    for name in book.txt ./book.txt twin link; do
        refuses "$name for both, $last" "pack book.txt $name" "$name is the file that is read"
    done
    refuses "the words for both, $last" 'pack show.book show.book' 'show.book is the file that is read'
    refuses "unpack to the words, $last" 'unpack show.book show.book' 'show.book is there already'
    printf 'caf\xe9 100\n' > cue.txt; cp cue.txt cue.before
    refuses "another text for the words, $last" 'pack book.txt cue.txt' 'cue.txt looks like a text'
    still "the text, $last" book.txt text.before
    still "the words, $last" show.book words.before
    still "the other text, $last" cue.txt cue.before
done
# a folder and a pipe are not replaced, and neither is a file that happens to have the name of the unfinished one
text '1 2\n'; mkdir folder; mkfifo pipe
refuses 'a folder for the words' 'pack show.txt folder' 'folder is no ordinary file'
refuses 'a pipe for the words' 'pack show.txt pipe' 'pipe is no ordinary file'
cases=$((cases + 1))
[ -p pipe ] && [ -d folder ] || { printf 'words: a pipe or a folder is gone\n'; wrong=1; }
words 7 7 > mine.new; cp mine.new mine.before
refuses 'an unfinished name that is taken' 'pack show.txt mine' 'mine.new: File exists'
still 'a file of another name' mine.new mine.before
gone 'an unfinished name that is taken' mine
# a link to words stays a link, and the file that it names gets the new ones
words 9 > far; ln -s far near; words 1 2 > wanted
shows 'over a link' 0 'pack show.txt near'
still 'what the link names' far wanted
cases=$((cases + 1))
[ -L near ] && [ ! -e far.new ] && [ ! -e near.new ] || { printf 'words: the link is gone, or an unfinished file is left\n'; wrong=1; }

# a text that is refused leaves no old words under their name; they are kept under another
text '1 two\n'
words 8 9 > show.book; cp show.book words.before
refuses 'a refusal over old words' 'pack show.txt show.book' "'two' is not a word.*; the old show.book is show.book.old now"
gone 'a refusal over old words' show.book
still 'the old words' show.book.old words.before
words 6 > show.book; printf 'my notes\n' > show.book.old; cp show.book.old notes.before
refuses 'where that name is a text' 'pack show.txt show.book' "'two' is not a word.*; the old show.book is still there"
still 'that text' show.book.old notes.before

# where a word, a name's order, a rule or a pair is: off, on, toggle (docs/TRYING.md)
printf '3\n0 0 1\n3\n0\n0\n2 1 0 # toggle\n2\n2 2 0   1 1\n2 2 1   1 0 # on\n' > book.txt
shows 'word 8' 0 'where book.txt 8' 'word 8 is 1, number 2 in line 6: 2 1 0 # toggle'
shows 'the last word' 0 'where book.txt 20' 'word 20 is 0, number 5 in line 9: 2 2 1   1 0 # on'
shows 'no word' 0 'where book.txt 21' 'word 21 is behind the last word: the text has 21 words'
shows 'name 0' 0 'where book.txt name 0' 'name 0 starts at word 5, 0, number 1 in line 4: 0'
shows 'name 2' 0 'where book.txt name 2' 'name 2 starts at word 7, 2, number 1 in line 6: 2 1 0 # toggle'
shows 'no name' 0 'where book.txt name 3' 'name 3 is behind the last word: the text has 21 words'
shows 'rule 0' 0 'where book.txt rule 0' 'rule 0 starts at word 11, 2, number 1 in line 8: 2 2 0   1 1'
shows 'rule 1' 0 'where book.txt rule 1' 'rule 1 starts at word 16, 2, number 1 in line 9: 2 2 1   1 0 # on'
shows 'no rule' 0 'where book.txt rule 2' 'rule 2 is behind the last word: the text has 21 words'
printf '2 0\n1 2\n' > record.txt
shows 'pair 1' 0 'where record.txt pair 1' 'pair 1 starts at word 2, 1, number 1 in line 2: 1 2'
shows 'no pair' 0 'where record.txt pair 2' 'pair 2 is behind the last word: the text has 4 words'
printf '65535\n' > short.txt
shows 'a name of a text that is no book' 0 'where short.txt name 65534' 'name 65534 is behind the last word: the text has 1 words'
shows 'a rule of one' 0 'where short.txt rule 0' 'rule 0 is behind the last word: the text has 1 words'
nines=$(printf '9%.0s' $(seq 40))
shows 'an index of many digits' 0 "where book.txt $nines$nines" "word $nines is behind the last word: the text has 21 words"
refuses 'no index' 'where book.txt one' "'one' is not an index"
printf '1\n2 two\n' > bad.txt
refuses 'a text with a typo' 'where bad.txt 0' "bad.txt: line 2: 'two' is not a word"
all_print 'what their help tells, and no file was lost'
