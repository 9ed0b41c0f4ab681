# For the scripts that hold what a program prints for its files to lines written by hand from 01: sourced with the program's path. It goes
# to a folder of its own, which is removed at the end.
[ $# = 1 ] || { printf 'usage: %s PROGRAM\n' "$0" >&2; exit 2; }
[ -f "$1" ] && [ -x "$1" ] || { printf '%s: %s is no program that can be run\n' "$0" "$1" >&2; exit 2; }
program=$(realpath "$1")
tests=$(realpath "$(dirname "$0")")
folder=$(mktemp -d)
trap 'rm -rf "$folder"' EXIT
cd "$folder"
cases=0
wrong=0

# words, low byte first
words() {
    local w bytes=
    for w in "$@"; do
        printf -v w '\\x%02x\\x%02x' $((w % 256)) $((w / 256))
        bytes+=$w
    done
    printf "$bytes"
}
zeros() { head -c "$1" /dev/zero; }
no() { rm -rf "$1"; }
book_b="5 0 2 1 1 0 5 0 1 1 2 1 0 2 1 0 1 0 3 1 4 3 1 0 4 4 2 1 32768 32769 1 32768 4 3 1 32768 32769 1 32769"
# book B with the words that follow it
book() { words $book_b "$@" > show.book; }

# a cue's file, and the heading of three numbers; for the tools that test a book by a list, the list, and their arguments without a cue and with one
cue() { words "$@" > show.cue; }
numbers='number place steps'
list() { words "$@" > list; }
bare='show.book list'
full="$bare show.cue"

# a book's file that is too long or odd, whatever else there is: one word in both programs
long_and_odd_books() {
    zeros 42503 > show.book
    prints 'a book of an odd length, one byte too long' long
    zeros 42504 > show.book
    prints 'a book two bytes too long' long
    zeros 100000 > show.book
    prints 'a book of many bytes too many' long
    zeros 42501 > show.book
    prints 'a book one byte below its limit' odd
}

# of a program in Python every run from here on is a copy of one start
started_once() { coproc many { exec python3 "$tests/many.py" "$program"; }; }
# runs the program with arguments that are words of one string; its exit status is got
run() { # OUTPUT ARGUMENTS
    got=0
    if [ -n "${many_PID:-}" ]; then
        printf '%s said %s\n' "$1" "$2" >&"${many[1]}"
        read -r got <&"${many[0]}"
    else
        "$program" $2 > "$1" 2> said < /dev/null || got=$?
    fi
}

# what the program prints here, its lines given one by one; the last line must be ended too
prints() { # CASE LINE..
    local name=$1
    shift
    cases=$((cases + 1))
    printf '%s\n' "$@" > expected
    "$program" > printed < /dev/null || true
    if ! cmp -s expected printed; then
        printf '%s: %s: it should print\n' "$(basename "$program")" "$name"
        sed 's/^/    /' expected
        printf 'and prints\n'
        sed 's/^/    /' printed
        wrong=1
    fi
}

# of a tool with arguments, which are words of one string: its exit status, and its lines one by one
shows() { # CASE STATUS ARGUMENTS LINE..
    local name=$1 status=$2 arguments=$3 got
    shift 3
    cases=$((cases + 1))
    { [ $# = 0 ] || printf '%s\n' "$@"; } > expected
    run printed "$arguments"
    if [ "$got" != "$status" ] || [ -s said ] || ! cmp -s expected printed; then
        printf '%s: %s: exit status %s, where %s is due; it should print\n' "$(basename "$program")" "$name" "$got" "$status"
        sed 's/^/    /' expected
        printf 'and prints\n'
        sed 's/^/    /' printed said
        wrong=1
    fi
}
# nothing but a line that says why
refuses() { # CASE ARGUMENTS WHAT IT SAYS
    local name=$1 got
    cases=$((cases + 1))
    run printed "$2"
    if [ "$got" != 2 ] || [ -s printed ] || [ "$(wc -l < said)" != 1 ] || ! grep -q "^$(basename "$program"): .*$3" said; then
        printf '%s: %s: exit status %s, where 2 is due, and it says\n' "$(basename "$program")" "$name" "$got"
        sed 's/^/    /' printed said
        wrong=1
    fi
}

# with a standard output that is full
cannot_print() { # CASE ARGUMENTS
    local name=$1 got
    cases=$((cases + 1))
    run /dev/full "$2"
    if [ "$got" != 2 ] || [ "$(wc -l < said)" != 1 ] || ! grep -q "^$(basename "$program"): the standard output: " said; then
        printf '%s: %s, printed where there is no room: exit status %s, where 2 is due, and it says\n' "$(basename "$program")" "$name" "$got"
        sed 's/^/    /' said
        wrong=1
    fi
}
# a file is as it should be: mostly, as it was before
still() { # CASE FILE COPY
    cases=$((cases + 1))
    cmp -s "$2" "$3" || { printf '%s: %s: %s is not as it should be\n' "$(basename "$program")" "$1" "$2"; wrong=1; }
}

# the last line of a script: how many cases there were, if all are right
all_print() { # WHAT
    [ "$wrong" = 0 ] || exit 1
    printf '%s: %s cases of files print %s\n' "$(basename "$program")" "$cases" "$1"
}
