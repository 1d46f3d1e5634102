#!/bin/sh
# corpus.sh REPLAY MAKETREE JUDGE [FOLDER]: run the commands REPLAY, MAKETREE and JUDGE on every case of the corpus (of FOLDER, or the stored one) and compare
# what they print, their exit status and the file that is made.
# A case for REPLAY is NAME.tree with NAME.out, what must be printed, and NAME.calls; where that is missing, the tree is to be printed alone. Where there is
# NAME.logged, it is what must be printed with --log: another case.
# A case for MAKETREE is NAME.text with NAME.out, and NAME.made, the file that must be made; where that is missing, none may be.
# A case for JUDGE is NAME.log with NAME.class-tree, the tree file, NAME.first, the first stamp, and NAME.out.
# It goes through all cases, prints a line for each that differs, with the first lines that do, and ends with `N cases agree, M differ`.
# The status is 0 if there are cases and all agree.
set -u
[ $# -eq 3 ] || [ $# -eq 4 ] || { echo "usage: corpus.sh REPLAY MAKETREE JUDGE [FOLDER]" >&2; exit 2; }
replay=$1
maketree=$2
judge=$3
corpus=${4:-$(dirname "$0")/corpus}
room=$(mktemp -d) || exit 2
trap 'rm -rf "$room"' EXIT

# The first line in which two files differ.
first_difference() { # EXPECTED PRINTED
    awk 'BEGIN {
        do {
            number++
            if ((getline expected < ARGV[1]) <= 0) expected = no_line = "no more lines"
            if ((getline printed < ARGV[2]) <= 0) printed = no_line = "no more lines"
        } while (expected "" == printed "" && no_line == "")
        if (expected "" == printed "") { print "it ends in another way"; exit }
        print "line " number " should be `" expected "` and is `" printed "`"
    }' "$1" "$2"
}

# The status that belongs to what must be printed: 1 after the refusal of a tree, a faulty line or a wrong record. A refused call is an answer.
status_told_by() { # EXPECTED
    case $(tail -n 1 "$1") in
    'refused '*' class '* | 'line '*': '* | 'record '*': '* | 'our rules: '*) echo 1 ;;
    *) echo 0 ;;
    esac
}

agree=0
differ=0
differs() { # WHAT
    name=${out##*/}
    echo "${name%.out}: $1"
    differ=$((differ + 1))
}

# Runs a command on files, or words; what it prints is in the file printed, and what it must print is in that of the case with this end.
run() { # END COMMAND FILE..
    out=$case.$1
    command=$2
    shift 2
    sh -c "$command \"\$@\"" sh "$@" > "$room/printed"
    status=$?
    expected=$(status_told_by "$out")
}

# Compares what the last command printed, then its status, and whether a file is as it should be, or is not there where none should be.
compare() { # [FILE-THAT-SHOULD-BE FILE]
    if ! cmp -s "$out" "$room/printed"; then
        differs "$(first_difference "$out" "$room/printed")"
    elif [ "$status" -ne "$expected" ]; then
        differs "ended with status $status and not $expected"
    elif [ $# -eq 2 ] && [ -e "$1" ] && ! cmp -s "$1" "$2"; then
        differs "the file that it made is not ${1##*/}"
    elif [ $# -eq 2 ] && [ ! -e "$1" ] && [ -e "$2" ]; then
        differs "it made a file"
    elif [ $# -eq 2 ] && [ -e "$2.new" ]; then
        differs "it left a file beside"
    else
        agree=$((agree + 1))
    fi
}

for tree in "$corpus"/*.tree; do
    [ -e "$tree" ] || continue
    case=${tree%.tree}
    set -- "$tree"
    [ ! -e "$case.calls" ] || set -- "$tree" "$case.calls"
    run out "$replay" "$@"
    compare
    [ -e "$case.logged" ] || continue
    run logged "$replay --log" "$@"
    compare
done
for text in "$corpus"/*.text; do
    [ -e "$text" ] || continue
    case=${text%.text}
    rm -f "$room/tree" "$room/tree.new"
    run out "$maketree" "$text" "$room/tree"
    compare "$case.made" "$room/tree"
done
for log in "$corpus"/*.log; do
    [ -e "$log" ] || continue
    case=${log%.log}
    run out "$judge" "$case.class-tree" "$(cat "$case.first")" "$log"
    compare
done
echo "$agree cases agree, $differ differ"
[ "$agree" -gt 0 ] && [ "$differ" -eq 0 ]
