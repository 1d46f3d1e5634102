#!/bin/sh
# commands.sh REPLAY MAKETREE JUDGE: what the three commands say of files that can't be read or written, of files from a pipe and of long logs, and how they end.
# It goes through all cases, prints a line for each that differs, and ends with `N cases agree, M differ`. The status is 0 if all agree.
set -u
[ $# -eq 3 ] || { echo "usage: commands.sh REPLAY MAKETREE JUDGE" >&2; exit 2; }
examples=$(cd "$(dirname "$0")/../examples" && pwd) || exit 2
here=$(pwd)
room=$(mktemp -d) || exit 2
trap 'rm -rf "$room"' EXIT

# A command of this folder is found from another.
found() { # COMMAND
    case $1 in /*) echo "$1" ;; */*) echo "'$here'/$1" ;; *) echo "$1" ;; esac
}
replay=$(found "$1") maketree=$(found "$2") judge=$(found "$3")
cd "$room" || exit 2
cp "$examples/studio.tree" "$examples/studio.txt" "$examples/studio.calls" "$examples/damaged-fit.tree" .
mkdir folder
ln -s studio.tree link.tree
head -c 65536 /dev/zero > longest
head -c 65537 /dev/zero > too-long
{ cat studio.tree; head -c 1000000 /dev/zero; } > and-zeros
printf 'start 5\ndepart 4\narrive 6 1 60\n' > refused.calls
: > in.new

# Runs a command; the shell splits it as it was given.
run() { # COMMAND ARGUMENT..
    command=$1
    shift
    sh -c "$command \"\$@\"" sh "$@"
}

agree=0 differ=0
# Counts a case.
agrees() { agree=$((agree + 1)); }
differs() { # WHAT
    differ=$((differ + 1))
    echo "$1"
}

# What prints to a command's standard input.
from=:
# A command ends with that status and says so, on standard output and on standard error.
says() { # STATUS STDOUT STDERR COMMAND ARGUMENT..
    status=$1 out=$2 err=$3
    shift 3
    eval "$from" | run "$@" > out 2> err
    ended=$?
    what="${1##*/} $2 ${3-} ${4-}"
    [ "$from" = : ] || what="$from | $what"
    if [ "$ended" -eq "$status" ] && [ "$(cat out)" = "$out" ] && [ "$(cat err)" = "$err" ]; then
        agrees
    else
        differs "$what: status $ended, it printed \`$(head -n 1 out)\` and said \`$(head -n 1 err)\`; it should have been $status, \`$out\` and \`$err\`"
    fi
}

# A command is called in a wrong way: it says its usage on standard error, and nothing else.
wants_usage() { # COMMAND ARGUMENT..
    run "$@" > out 2> err < /dev/null
    ended=$?
    if [ "$ended" -eq 2 ] && [ ! -s out ] && head -n 1 err | grep -q '^usage: '; then agrees; else differs "${1##*/} with $(($# - 1)) arguments: status $ended, it said \`$(head -n 1 err)\`"; fi
}

# A file is as another, or is not there.
stays() { # FILE OTHER
    if cmp -s "$1" "$2"; then agrees; else differs "$what: $1 is not as it should be"; fi
}
absent() { # FILE..
    for file in "$@"; do
        if [ -e "$file" ] || [ -L "$file" ]; then differs "$what: there is a file $file"; else agrees; fi
    done
}

# The first call of each may prove it, and says so.
run "$replay" studio.tree > /dev/null 2>&1
run "$maketree" none none > /dev/null 2>&1
run "$judge" none 0 none > /dev/null 2>&1

says 0 "$(cat studio.txt)" '' "$replay" studio.tree
says 0 "$(cat studio.txt)" '' "$replay" link.tree
says 0 'started 8
refused 14
refused 11' '' "$replay" studio.tree refused.calls
says 1 'refused 10 class 0' '' "$replay" damaged-fit.tree
says 1 'refused 10 class 0' '' "$replay" damaged-fit.tree none
says 1 'refused 2 class 0' '' "$replay" longest
says 1 'refused 2 class 0' '' "$replay" too-long
says 1 'refused 5 class 0' '' "$replay" and-zeros
says 1 '' 'none: No such file or directory' "$replay" none
says 1 '' 'none: No such file or directory' "$replay" none studio.calls
says 1 '' 'folder: Is a directory' "$replay" folder
says 1 '' 'none: No such file or directory' "$replay" studio.tree none
says 1 '' 'folder: Is a directory' "$replay" studio.tree folder
says 1 '' 'studio.calls/none: Not a directory' "$replay" studio.tree studio.calls/none

says 0 '' '' "$maketree" studio.txt made
stays made studio.tree
absent made.new
says 0 '' '' "$maketree" studio.txt 'a name, with spaces'
stays 'a name, with spaces' studio.tree
says 1 '' 'made: File exists' "$maketree" studio.txt made
stays made studio.tree
says 1 '' 'longest: File exists' "$maketree" studio.txt longest
says 1 '' 'folder: File exists' "$maketree" studio.txt folder
says 1 '' 'link.tree: File exists' "$maketree" studio.txt link.tree
absent longest.new folder.new link.tree.new
says 1 '' 'in.new: File exists' "$maketree" studio.txt in
stays in.new /dev/null
absent in
says 1 '' 'none: No such file or directory' "$maketree" none new
says 1 '' 'folder: Is a directory' "$maketree" folder new
says 1 '' 'too-long: longer than 65536 bytes, no text of a tree' "$maketree" too-long new
says 1 'line 1: not a class' '' "$maketree" longest new
says 1 'line 1: not a class' '' "$maketree" studio.tree new
says 1 'refused 4 class 0' '' "$maketree" /dev/null new
absent new new.new
says 1 '' 'none/new.new: No such file or directory' "$maketree" studio.txt none/new

# The log of the afternoon, put together from its calls and its answers.
first=$(sed -n 's/^start //p' studio.calls)
grep -v '^#' studio.calls | paste -d ' ' - "$examples/studio.out" | awk '
    $1 == "arrive" && $5 == "accepted" { print 1, $2, $3, $4 }
    $1 == "depart" && $3 == "packet" { print 2, $2, $5, $9 }
    $1 == "depart" && $3 == "none" { print 3, $2, 0, 0 }' > studio.log
records=$(($(wc -l < studio.log)))

says 0 "$(cat studio.log)" '' "$replay" --log studio.tree studio.calls
says 0 "$(cat studio.log)" '' "$replay" --log link.tree studio.calls
says 0 '' '' "$replay" --log studio.tree refused.calls
says 0 '' '' "$replay" --log studio.tree /dev/null
printf 'start 5\ndepart 006\nleave\ndepart 7\n' > faulty.calls
says 1 '3 6 0 0
line 3: not a call' '' "$replay" --log studio.tree faulty.calls
says 1 'refused 10 class 0' '' "$replay" --log damaged-fit.tree studio.calls
says 1 'refused 10 class 0' '' "$replay" --log damaged-fit.tree none
says 1 '' 'none: No such file or directory' "$replay" --log none studio.calls
says 1 '' 'none: No such file or directory' "$replay" --log studio.tree none
says 1 '' 'folder: Is a directory' "$replay" --log studio.tree folder
wants_usage "$replay" --log
wants_usage "$replay" --log studio.tree
wants_usage "$replay" --log studio.tree studio.calls more
wants_usage "$replay" studio.tree --log studio.calls

says 1 'record 12: another choice
our rules: packet class 3 number 1 length 200 rule real-time eligible 4000 deadline 5000' '' "$judge" studio.tree 0 "$examples/other-box.log"
says 0 "accepted $records records" '' "$judge" studio.tree "$first" studio.log
says 0 "accepted $records records" '' "$judge" link.tree "0000$first" studio.log
says 1 'record 0: refused 14' '' "$judge" studio.tree 0 studio.log
says 1 'record 0: refused 14' '' "$judge" studio.tree "$((first + 1))" studio.log
says 0 'accepted 0 records' '' "$judge" studio.tree 0 /dev/null
says 0 'accepted 0 records' '' "$judge" studio.tree 4294967295 /dev/null
# The first stamp is looked at before the tree file, and that before the log.
for word in '' x -1 +1 5x 0x5 1.0 '5 ' ' 5' '5#' 4294967296 18446744073709551616 000000000004294967296; do
    says 2 '' 'judge: FIRST is not a number of 32 bits' "$judge" none.tree "$word" none.log
done
says 1 '' 'none.tree: No such file or directory' "$judge" none.tree 0 none.log
says 1 '' 'folder: Is a directory' "$judge" folder 0 none.log
says 1 'refused 10 class 0' '' "$judge" damaged-fit.tree 0 none.log
says 1 'refused 10 class 0' '' "$judge" damaged-fit.tree "$first" studio.log
says 1 'refused 2 class 0' '' "$judge" longest 0 none.log
says 1 'refused 5 class 0' '' "$judge" and-zeros 0 none.log
says 1 '' 'none.log: No such file or directory' "$judge" studio.tree 0 none.log
says 1 '' 'folder: Is a directory' "$judge" studio.tree 0 folder
says 1 '' 'studio.log/none: Not a directory' "$judge" studio.tree 0 studio.log/none
says 1 'line 1: not a number' '' "$judge" studio.tree 0 studio.tree
says 1 'line 4: not a number' '' "$judge" studio.tree 0 studio.calls
says 1 'line 1: not a number' '' "$judge" studio.tree 0 longest
wants_usage "$judge"
wants_usage "$judge" studio.tree
wants_usage "$judge" studio.tree 0
wants_usage "$judge" studio.tree 0 studio.log more

# Long logs. Leaf 7, the mail, has no real-time curve, and nothing else comes.
judges() { # STATUS STDOUT FIRST
    says "$1" "$2" '' "$judge" studio.tree "$3" long.log
}
many() { # BYTES CHARACTER
    head -c "$1" /dev/zero | tr '\0' "$2"
}
awk 'BEGIN { for (i = 0; i < 20000; i++) printf "3 %d 0 0 ", 1000000 + i }' > one-line
cp one-line long.log
judges 0 'accepted 20000 records' 1000000
{ cat one-line; printf '2 1020000 7 60 x'; } > long.log
judges 1 'record 20000: another choice
our rules: none waits' 1000000
{ cat one-line; printf '1 1020000 7 60\n3 1020000 0 0'; } > long.log
judges 1 'record 20001: another choice
our rules: packet class 7 number 0 length 60 rule fair' 1000000
{ cat one-line; printf '3 1020000 0 x'; } > long.log
judges 1 'line 1: not a number' 1000000
{ cat one-line; printf '3 1020000 0'; } > long.log
judges 1 'record 20000: malformed' 1000000
{ printf '5 1000000 0 0 '; cat one-line; printf x; } > long.log
judges 1 'record 0: malformed' 1000000
{ printf 'x '; cat one-line; } > long.log
judges 1 'line 1: not a number' 1000000
awk 'BEGIN { for (i = 0; i < 2000; i++) printf "1 %020d 7 %020d\n2 %020d 7 %020d\n", 80 * i, 60, 80 * i, 60 }' > long.log
judges 0 'accepted 4000 records' 0
{ many 70000 0; printf '3 5 0 0\n3 '; many 70000 0; printf '5 '; many 70000 0; printf ' '; many 70000 0; } > long.log
judges 0 'accepted 2 records' 5
{ printf '3 '; many 70000 0; printf '4294967295 0 0'; } > long.log
judges 0 'accepted 1 records' 4294967295
{ printf '3 '; many 70000 0; printf '4294967296 0 0'; } > long.log
judges 1 'line 1: not a number' 0
{ printf '3 '; many 70000 0; printf 'x 0 0'; } > long.log
judges 1 'line 1: not a number' 0
{ printf '3 0 0 0\n3 '; many 70000 9; printf ' 0 0'; } > long.log
judges 1 'line 2: not a number' 0
{ printf '\n3 0 0 0 '; many 100001 x; } > long.log
judges 1 'line 2: not a number' 0
for end in '' '
'; do
    { printf '1 5 7 60 #'; many 100001 x; printf '\n2 5 7#'; many 1000001 9; printf '\n60#'; many 100001 ' '; printf '%s' "$end"; } > long.log
    judges 0 'accepted 2 records' 5
done
{ printf '#'; many 100001 '#'; printf '\n#'; many 100001 4; printf '\nx\n'; } > long.log
judges 1 'line 3: not a number' 0
{ many 200000 '\n'; printf x; } > long.log
judges 1 'line 200001: not a number' 0
{ printf '1 5 7 60'; many 300000 ' '; printf '2 5'; many 300000 '\t'; printf '7 '; many 300000 '\r'; printf 60; many 300000 '\n'; } > long.log
judges 0 'accepted 2 records' 5
{ many 70000 ' '; printf '3 5 0 0 '; many 70000 0; } > long.log
judges 1 'record 1: malformed' 5
{ echo 'start 4294967295'; yes 'depart 4294967295' | head -n 5000; } > long.calls
yes '3 4294967295 0 0' | head -n 5000 > long.log
run "$replay" --log studio.tree long.calls > long.logged
what='replay --log of many calls'
stays long.logged long.log
judges 0 'accepted 5000 records' 4294967295

# Through pipes; both start at once.
run "$replay" studio.tree | run "$maketree" /dev/stdin piped
what='replay | maketree'
stays piped studio.tree
# shellcheck disable=SC2002
if cat studio.calls | run "$replay" studio.tree /dev/stdin | cmp -s - "$examples/studio.out"; then agrees; else differs 'calls through a pipe: the answers differ'; fi
# shellcheck disable=SC2002
if cat studio.calls | run "$replay" --log studio.tree /dev/stdin | cmp -s - studio.log; then agrees; else differs 'calls through a pipe: the log differs'; fi
# shellcheck disable=SC2016
from='run "$replay" --log studio.tree studio.calls'
says 0 "accepted $records records" '' "$judge" studio.tree "$first" /dev/stdin

# A tree file from a pipe, with a pause after each burst: so many bytes at a time, then the rest.
bursts() { # BYTES..
    at=1
    for bytes in "$@"; do
        tail -c +"$at" studio.tree | head -c "$bytes"
        sleep 0.1
        at=$((at + bytes))
    done
    tail -c +"$at" studio.tree
}
for from in 'bursts' 'bursts 20' 'bursts 1 2 100' 'sleep 0.1; bursts 15; sleep 0.1'; do
    says 0 "$(cat studio.txt)" '' "$replay" /dev/stdin
    says 0 "$(cat "$examples/studio.out")" '' "$replay" /dev/stdin studio.calls
    says 0 "$(cat studio.log)" '' "$replay" --log /dev/stdin studio.calls
    says 0 "accepted $records records" '' "$judge" /dev/stdin "$first" studio.log
done
from=:
says 1 'refused 1 class 0' '' "$replay" /dev/stdin
from='head -c 20 studio.tree'
says 1 'refused 5 class 0' '' "$replay" /dev/stdin
from='bursts 20; sleep 0.1; printf x'
says 1 'refused 5 class 0' '' "$replay" /dev/stdin studio.calls
from='bursts 20; head -c 1000000 /dev/zero'
says 1 'refused 5 class 0' '' "$replay" /dev/stdin
from='head -c 1000000 /dev/zero'
says 1 'refused 2 class 0' '' "$replay" /dev/stdin
says 1 'refused 2 class 0' '' "$judge" /dev/stdin 0 studio.log
from='head -c 20 studio.tree'
says 1 'refused 5 class 0' '' "$judge" /dev/stdin 0 none.log

# A log from a pipe, with pauses: within a number, a record, a comment and white space.
from='printf "1 5 7 6"; sleep 0.1; printf "0\n2 5"; sleep 0.1; printf " 7 6"; sleep 0.1; printf 0'
says 0 'accepted 2 records' '' "$judge" studio.tree 5 /dev/stdin
from='printf "3 5 0 #"; sleep 0.1; printf "x\n "; sleep 0.1; printf " 0"; sleep 0.1; printf "0#"; sleep 0.1; printf 7'
says 0 'accepted 1 records' '' "$judge" studio.tree 5 /dev/stdin
from='printf "1 5 7 60 2 5 7 6"; sleep 0.1; printf "\n0 0 0 0"'
says 1 'record 1: another choice
our rules: packet class 7 number 0 length 60 rule fair' '' "$judge" studio.tree 5 /dev/stdin
from='printf "3 5 0 0\n3 5"; sleep 0.1; printf " 0"'
says 1 'record 1: malformed' '' "$judge" studio.tree 5 /dev/stdin
from='printf "3 5 0 0\n"; sleep 0.1; printf "\n3 429496729"; sleep 0.1; printf "6"'
says 1 'line 3: not a number' '' "$judge" studio.tree 5 /dev/stdin
from='sleep 0.1'
says 0 'accepted 0 records' '' "$judge" studio.tree 5 /dev/stdin
from=:

# No byte can be written, as on a full disk. What is said goes through a pipe, since that is no file.
what='maketree on a full disk'
# shellcheck disable=SC3045
said=$(trap '' XFSZ; ulimit -f 0; run "$maketree" studio.txt full 2>&1; echo "status $?")
if [ "$said" = 'full: File too large
status 1' ]; then agrees; else differs "$what: it said \`$said\`"; fi
absent full full.new

# What is printed can't be written.
for calls in '' studio.calls; do
    said=$(run "$replay" studio.tree ${calls:+"$calls"} 2>&1 >/dev/full; echo "status $?")
    if [ "$said" = 'standard output: No space left on device
status 1' ]; then agrees; else differs "replay studio.tree $calls with no room for its answers: it said \`$said\`"; fi
done
for words in "$replay --log studio.tree studio.calls" "$judge studio.tree $first studio.log" "$judge studio.tree 0 studio.log" "$judge damaged-fit.tree 0 studio.log"; do
    said=$(run "$words" 2>&1 >/dev/full; echo "status $?")
    if [ "$said" = 'standard output: No space left on device
status 1' ]; then agrees; else differs "$words with no room for its answers: it said \`$said\`"; fi
done

echo "$agree cases agree, $differ differ"
[ "$differ" -eq 0 ]
