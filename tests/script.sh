#!/bin/sh
# script.sh: the commands' script (../replay, and ../maketree and ../judge, links to it), with stand-ins for the toolchain and the programs. Nothing is proved
# or built.
# It goes through all cases, prints a line for each that is wrong, and ends with `N cases agree, M differ`. The status is 0 if all agree.
set -u
repo=$(cd "$(dirname "$0")/.." && pwd)
room=$(mktemp -d) || exit 2
trap 'rm -rf "$room"' EXIT
kit=$room/kit lib=$room/kit/toolchain/lib
mkdir -p "$room/repo/crates/curve" "$room/repo/crates/replay" "$room/repo/crates/maketree" "$room/repo/crates/judging" "$kit/bin" "$lib" "$room/bin" "$room/links"
cp -P "$repo/replay" "$repo/maketree" "$repo/judge" "$room/repo"
cd "$room" || exit 2
printf '# crates\ncurve:\ntree: curve\nfile: curve tree # a comment\nmaketree: tree file io os\nreplay: file io\njudge: curve\njudging: file io\nother: curve\n' > repo/crates.txt
echo kit > kit/KIT-ID
ln -s "$kit/bin/rt" bin/rt
PATH=$room/bin:$PATH
unset RATTLE_HOME TERM

# A program from its lines.
program() { # FILE LINES
    printf '#!/bin/sh\n%s\n' "$2" > "$1"
    chmod +x "$1"
}

# The stand-in of the loader drops its own two words. The program that rt builds says its arguments, reads a line, and ends with the digit that it is told.
program "$lib/ld-linux-x86-64.so.2" 'shift 2; exec "$@"'
built='echo "$0: $*" | sed "s|.*/||"; read -r word && echo "read $word"; echo on error >&2; [ "${DIGIT-0}" = none ] || { echo "${DIGIT-0}" >&9; } 2>&-; exit "${ENDS-0}"'
# The stand-in of rt, which is called in the program's crate: each crate, then the program.
program kit/bin/rt "cat > /dev/null
[ \"\$*\" = run ] || exit 2
name=\$(basename \"\$PWD\")
echo 'fn some::thing: proved'
for low in curve tree file; do
    echo \"library curve: modules loaded=3 checked=0\"
    echo \"crate \$low: modules loaded=3 checked=1\"
    echo 'logic=proved functions=2 sum=12'
done
case \${RT-} in wrong) for n in \$(seq 100); do echo \"error \$n\"; done; echo \"rt: \$name NOT PROVED (exit 1, 5 s)\"; exit 1 ;; esac
echo \"crate \$name: modules loaded=3 checked=1\"
echo 'logic=proved functions=2 sum=12'
mkdir -p out
printf '#!/bin/sh\n%s\n' '$built' > out/\$name
chmod +x out/\$name
echo \"rt: running out/\$name; to give it other input, run that file yourself\"
echo \"usage: \$name\""

agree=0 differ=0
# Runs a command with `stdin` as standard input, and compares its status, standard output and standard error.
holds() { # WHAT STATUS STDOUT STDERR COMMAND..
    what=$1 status=$2 out=$3 err=$4
    shift 4
    echo stdin | "$@" > out 2> err
    ended=$?
    if [ "$ended" -eq "$status" ] && [ "$(cat out)" = "$out" ] && [ "$(cat err)" = "$err" ]; then
        agree=$((agree + 1))
    else
        differ=$((differ + 1))
        echo "$what: status $ended, it printed"
        cat out
        echo "and on standard error"
        cat err
    fi
}

usage_replay='usage: replay TREE CALLS          replays the calls of the file CALLS over the class-tree file TREE, and prints the answers
       replay --log TREE CALLS    replays them and prints the log of the run, a record a line, as judge takes it
       replay TREE                prints the tree of the class-tree file TREE'
usage_maketree='usage: maketree TEXT TREE    writes the class-tree file TREE, a new one, from the text of a tree in the file TEXT'
usage_judge='usage: judge TREE FIRST LOG    judges the log LOG of another box over the class-tree file TREE, from the first stamp FIRST'
proving_maketree='maketree: proving and building the program first, 4 crates; that can take minutes
maketree: 1 of 4 proved: curve
maketree: 2 of 4 proved: tree
maketree: 3 of 4 proved: file
maketree: 4 of 4 proved: maketree'
proving_replay=$(echo "$proving_maketree" | sed 's/maketree/replay/g')
# the program's name is judge, and its crate's judging
proving_judge=$(echo "$proving_maketree" | sed 's/^maketree/judge/; s/maketree$/judging/')
ran_replay='replay: a b
read stdin'
ran_judge='judging: a 5 b
read stdin'

for help in -h --help; do
    holds "replay $help" 0 "$usage_replay" '' repo/replay $help
    holds "maketree $help" 0 "$usage_maketree" '' repo/maketree $help
    holds "judge $help" 0 "$usage_judge" '' repo/judge $help
done
holds 'replay of nothing' 2 '' "$usage_replay" repo/replay
holds 'replay of three' 2 '' "$usage_replay" repo/replay a b c
holds 'replay of three, --log second' 2 '' "$usage_replay" repo/replay a --log c
holds 'replay of three, --log last' 2 '' "$usage_replay" repo/replay a b --log
holds 'replay --log of nothing' 2 '' "$usage_replay" repo/replay --log
holds 'replay --log of one' 2 '' "$usage_replay" repo/replay --log a
holds 'replay --log of three' 2 '' "$usage_replay" repo/replay --log a b c
holds 'replay --logs of two' 2 '' "$usage_replay" repo/replay --logs a b
holds 'maketree of nothing' 2 '' "$usage_maketree" repo/maketree
holds 'maketree of one' 2 '' "$usage_maketree" repo/maketree a
holds 'maketree of three' 2 '' "$usage_maketree" repo/maketree a b c
holds 'maketree --log' 2 '' "$usage_maketree" repo/maketree --log a b
for words in '' a 'a 5' 'a 5 b c' '--log a b c'; do
    # shellcheck disable=SC2086
    holds "judge of \`$words\`" 2 '' "$usage_judge" repo/judge $words
done
holds 'help without a toolchain' 0 "$usage_replay" '' env PATH=/usr/bin:/bin repo/replay -h
if PATH=/usr/bin:/bin command -v rt > /dev/null; then echo 'not run: no toolchain (there is one in /usr/bin)'
else holds 'no toolchain' 2 '' 'replay: the Rattle toolchain is missing: there is no rt on the PATH' env PATH=/usr/bin:/bin repo/replay a; fi
holds 'a toolchain for no machine' 2 '' "replay: the Rattle toolchain at $room/none has nothing for $(uname -m)" env RATTLE_HOME="$room/none" repo/replay a

RT=wrong holds 'unproved' 1 '' "$(echo "$proving_maketree" | head -n 4; seq 82 100 | sed 's/^/error /'; echo 'rt: maketree NOT PROVED (exit 1, 5 s)
maketree: the program is not proved, so it is not run')" repo/maketree a b
holds 'first run' 0 "$ran_replay" "$proving_replay
on error" repo/replay a b
holds 'second run' 0 "$ran_replay" 'on error' repo/replay a b
holds 'one argument' 0 'replay: a
read stdin' 'on error' repo/replay a
holds 'an argument with spaces' 0 'replay: a  b *
read stdin' 'on error' repo/replay 'a  b *'
holds 'the other program' 0 'maketree: a b
read stdin' "$proving_maketree
on error" repo/maketree a b
sleep 0.01
touch repo/crates/curve/changed
holds 'after a change' 0 "$ran_replay" "$proving_replay
on error" repo/replay a b
rm repo/crates/replay/out/replay
holds 'after the program is gone' 0 "$ran_replay" "$proving_replay
on error" repo/replay a b
holds 'with --log' 0 'replay: --log a b
read stdin' 'on error' repo/replay --log a b
holds 'with --log, and names with spaces' 0 'replay: --log a  b * c
read stdin' 'on error' repo/replay --log 'a  b *' c
holds 'judge, first run' 0 "$ran_judge" "$proving_judge
on error" repo/judge a 5 b
holds 'judge, second run' 0 "$ran_judge" 'on error' repo/judge a 5 b
rm -f repo/crates/judging/out/judging
holds 'judge, after its program is gone' 0 "$ran_judge" "$proving_judge
on error" repo/judge a 5 b
holds 'judge of --log' 0 'judging: --log a b
read stdin' 'on error' repo/judge --log a b
holds 'judge of an empty word' 0 'judging: a  b
read stdin' 'on error' repo/judge a '' b
DIGIT=1 holds 'judge says 1' 1 "$ran_judge" 'on error' repo/judge a 5 b
DIGIT=2 holds 'judge says 2' 2 "$ran_judge" 'on error' repo/judge a 5 b
DIGIT=none holds 'judge says nothing' 1 "$ran_judge" 'on error
judge: the program ended, and did not say whether all was done' repo/judge a 5 b
rm -f repo/crates/judging/out/judging
RT=wrong holds 'judge, unproved' 1 '' "$(echo "$proving_judge" | head -n 4; seq 82 100 | sed 's/^/error /'; echo 'rt: judging NOT PROVED (exit 1, 5 s)
judge: the program is not proved, so it is not run')" repo/judge a 5 b

DIGIT=1 holds 'it says 1' 1 "$ran_replay" 'on error' repo/replay a b
DIGIT=2 holds 'it says 2' 2 "$ran_replay" 'on error' repo/replay a b
DIGIT=none holds 'it says nothing' 1 "$ran_replay" 'on error
replay: the program ended, and did not say whether all was done' repo/replay a b
DIGIT=7 holds 'it says no status' 1 "$ran_replay" 'on error
replay: the program ended, and did not say whether all was done' repo/replay a b
ENDS=3 holds 'it breaks' 3 "$ran_replay" 'on error' repo/replay a b
ENDS=137 DIGIT=none holds 'it is killed' 137 "$ran_replay" 'on error' repo/replay a b

ln -s ../repo/replay links/replay
ln -s ../repo/maketree links/maketree
ln -s maketree links/hfsc-maketree
ln -s ../repo/judge links/judge
ln -s judge links/hfsc-judge
ln -s ../repo/replay links/judging
cp repo/replay links/other
holds 'by a link' 0 "$ran_replay" 'on error' links/replay a b
holds 'the other by a link' 2 '' "$usage_maketree" links/maketree a
holds 'by a link of another name' 2 '' "$usage_maketree" links/hfsc-maketree a
holds 'judge by a link' 2 '' "$usage_judge" links/judge a
holds 'judge by a link of another name' 2 '' "$usage_judge" links/hfsc-judge a
holds 'a link with a name of a crate' 0 "$ran_replay" 'on error' links/judging a b
holds 'by the PATH' 0 "$ran_replay" 'on error' env PATH="$room/repo:$PATH" replay a b
holds 'by another name' 2 '' 'other: no program has this name; there are replay, maketree and judge' links/other a

# What is printed comes as it is printed, and not at the end.
program repo/crates/replay/out/replay 'echo one; read -r word; echo two; echo 0 >&9'
mkfifo asks
{ repo/replay a b < asks; echo "status $?"; } > answers &
exec 3> asks
for turn in 1 2 3 4 5 6 7 8 9 10; do [ ! -s answers ] || break; sleep 0.2; done
holds 'before it ends' 0 'one' '' cat answers
echo >&3
exec 3>&-
wait
holds 'as it comes' 0 'one
two
status 0' '' cat answers

# On a terminal, one line is rewritten, and at the end it is gone.
if command -v script > /dev/null; then
    touch repo/crates/curve/changed
    holds 'on a terminal' 0 '' '' sh -c "TERM=vt100 script -qec 'repo/replay a b > said < /dev/null' typed > /dev/null 2>&1 < /dev/null"
    esc=$(printf '\r\033[K')
    holds 'what the terminal got' 0 "$(printf '%s' "$proving_replay" | sed "s/^/$esc/" | tr -d '\n'; printf '%s' "$esc")" '' sh -c "grep -a 'proving' typed | tr -d '\n' | sed 's/on error.*//'"
fi
echo "$agree cases agree, $differ differ"
[ "$differ" -eq 0 ]
