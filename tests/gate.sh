#!/bin/sh
# gate.sh: the gate's count and exit status, with stand-ins for rt, cargo, the programs and the other parts. Nothing is proved or built.
# Ends with `the gate counts right`, or names the case in which it does not.
set -u
repo=$(cd "$(dirname "$0")/.." && pwd)
room=$(mktemp -d) || exit 2
trap 'rm -rf "$room"' EXIT
mkdir -p "$room/.ci" "$room/tests/corpus" "$room/bin" "$room/tools" "$room/examples" "$room/bench" "$room/target"
cp "$repo/.ci/run" "$repo/.ci/toolchain" "$room/.ci"
cp "$repo/tests/corpus.sh" "$room/tests"
cd "$room" || exit 2
# Only these tools are there, so that one can be missing.
for tool in awk bash cat cmp dirname head mktemp rm sh tail tee; do ln -s "$(command -v $tool)" "tools/$tool"; done

# A program from its lines.
program() { # FILE LINES
    printf '#!/bin/sh\n%s\n' "$2" > "$1"
    chmod +x "$1"
}

# A part that prints so and ends with that status.
part() { # FILE STATUS LINE..
    file=$1 status=$2
    shift 2
    program "$file" "$(for line in "$@"; do echo "echo '$line'"; done)
exit $status"
}

# rt ci that prints so and ends with that status. Its last line but one may say of edits.
rt_ci() { # STATUS LASTLINE EDITS
    program bin/rt "[ \"\$1\" != version ] || { cat .ci/toolchain; exit; }; echo 'rt: ok; handles allowed: none; ${3-}every proof was done in this run'; echo '$2'; exit $1"
}

# cargo: its tests and the driver, which print so and end with those statuses. The driver says first whether it is to judge, and what it is to run in C.
cargo() { # STATUS-OF-TESTS PASSED FAILED STATUS-OF-DRIVER LAST-LINE-OF-DRIVER
    program bin/cargo "case \$1 in
test) echo 'test result: ok. 1 passed; 0 failed; 0 ignored'; [ '$2' = '' ] || echo 'test result: so. $2 passed; $3 failed; 0 ignored'; echo 'Doc-tests'; exit $1 ;;
run) for words in '--judge ./judge' '--bursts target/bursts' '--judge-c target/judge'; do
    case \"\$*\" in *\" \$words \"*) echo \"with \$words\" ;; *) echo \"without \$words\" ;; esac
done; [ '$5' = '' ] || echo '$5' >&2; exit $4 ;;
esac"
}

# The gate ends with that line and that status.
ends() { # WHAT STATUS LASTLINE
    PATH=$room/bin:$room/tools .ci/run > said 2>&1
    status=$?
    if [ "$status" -ne "$2" ] || [ "$(tail -n 1 said)" != "$3" ]; then
        echo "$1: status $status, and last lines:"
        tail -n 5 said
        exit 1
    fi
}

# One line of what the gate said is this.
tells() { # WHAT LINE
    [ "$(grep -cFx -e "$2" said)" -eq 1 ] || { echo "$1: it does not say \`$2\`"; exit 1; }
}

# The stand-in of replay prints the first letter of each of its files, and `log` before for the option, that of maketree copies its file and prints nothing, that
# of judge prints its first stamp, and two letters. Five cases: a tree with its calls, and its log, a tree alone, a text, and a log.
plain_replay='[ "$1" != --log ] || { echo log; shift; }; for file in "$@"; do head -c 1 "$file"; echo; done'
program replay "$plain_replay"
program maketree 'cat "$1" > "$2"'
plain_judge='echo "$2"; for file in "$1" "$3"; do head -c 1 "$file"; echo; done'
program judge "$plain_judge"
echo tree > tests/corpus/1.tree
echo calls > tests/corpus/1.calls
printf 't\nc\n' > tests/corpus/1.out
printf 'log\nt\nc\n' > tests/corpus/1.logged
cp tests/corpus/1.tree tests/corpus/2.tree
printf 't\n' > tests/corpus/2.out
echo text > tests/corpus/t.text
: > tests/corpus/t.out
echo text > tests/corpus/t.made
echo tree > tests/corpus/j.class-tree
echo 77 > tests/corpus/j.first
echo log > tests/corpus/j.log
printf '77\nt\nl\n' > tests/corpus/j.out
# The other parts: 4, 5, 7, 8, 1 + 6, 1, 1 and 1. With those five and rt ci's 40 they are 79.
part tests/commands.sh 0 '4 cases agree, 0 differ'
part tests/script.sh 0 '5 cases agree, 0 differ'
part tests/bursts.sh 0 '7 cases agree, 0 differ'
part tests/judge.sh 0 '8 cases agree, 0 differ'
program target/bursts 'exit 0'
program target/judge 'exit 0'
cargo 0 6 0 0 'the driver agrees'
part examples/host.sh 0 'as expected'
part bench/run 0 'the same'
rt_ci 0 '40 passed, 0 failed'
ends 'all agree' 0 '79 passed, 0 failed'
tells 'all agree' 'the driver agrees'

# the corpus
printf 'x\n' > tests/corpus/2.out
ends 'one differs' 1 '78 passed, 1 failed'
tells 'one differs' '2: line 1 should be `x` and is `t`'
printf 't' > tests/corpus/2.out
ends 'one lacks its last end of line' 1 '78 passed, 1 failed'
tells 'one lacks its last end of line' '2: it ends in another way'
printf 't\nline 3: not a call\n' > tests/corpus/2.out
program replay "$plain_replay; [ \$# -eq 2 ] || echo 'line 3: not a call'"
ends 'a faulty line and status 0' 1 '78 passed, 1 failed'
tells 'a faulty line and status 0' '2: ended with status 0 and not 1'
program replay "$plain_replay; [ \$# -eq 2 ] || { echo 'line 3: not a call'; exit 1; }"
ends 'a faulty line and status 1' 0 '79 passed, 0 failed'
echo other > tests/corpus/t.made
ends 'another file' 1 '78 passed, 1 failed'
tells 'another file' 't: the file that it made is not t.made'
rm tests/corpus/t.made
ends 'a file that should not be' 1 '78 passed, 1 failed'
tells 'a file that should not be' 't: it made a file'
program maketree 'cat "$1" > "$2.new"'
ends 'a file beside' 1 '78 passed, 1 failed'
tells 'a file beside' 't: it left a file beside'
echo text > tests/corpus/t.made
ends 'no file' 1 '78 passed, 1 failed'
tells 'no file' 't: the file that it made is not t.made'
program maketree 'cat "$1" > "$2"'
printf 'log\nt\nx\n' > tests/corpus/1.logged
ends 'another log' 1 '78 passed, 1 failed'
tells 'another log' '1.logged: line 3 should be `x` and is `c`'
printf 'log\nt\nc\n' > tests/corpus/1.logged
printf '78\nt\nl\n' > tests/corpus/j.out
ends 'another first stamp' 1 '78 passed, 1 failed'
tells 'another first stamp' 'j: line 1 should be `78` and is `77`'
for last in 'record 0: malformed' 'our rules: none waits'; do
    printf '77\nt\nl\n%s\n' "$last" > tests/corpus/j.out
    program judge "$plain_judge; echo '$last'"
    ends "a wrong record and status 0, $last" 1 '78 passed, 1 failed'
    tells "a wrong record and status 0, $last" 'j: ended with status 0 and not 1'
    program judge "$plain_judge; echo '$last'; exit 1"
    ends "a wrong record and status 1, $last" 0 '79 passed, 0 failed'
done
program judge "$plain_judge"
printf '77\nt\nl\n' > tests/corpus/j.out

# rt ci
rt_ci 1 '39 passed, 1 failed'
ends 'rt ci fails' 1 '39 passed, 1 failed'
rt_ci 2 'rt: cannot go on'
ends 'rt ci breaks' 2 'rt: cannot go on'
rt_ci 0 'rt: ok'
ends 'rt ci without a count' 2 'gate: the last line of rt ci is no count'
for bad in 1 12; do
    rt_ci 0 '40 passed, 0 failed' "must-fail edits: 9 refused, 2 of them only by a limit, $bad bad; "
    ends "$bad bad edits" 1 "79 passed, $bad failed"
    tells "$bad bad edits" "gate: $bad must-fail edits are bad"
done
rt_ci 0 '40 passed, 0 failed' 'must-fail edits: 9 refused, 2 of them only by a limit; '
ends 'no bad edits' 0 '79 passed, 0 failed'
rt_ci 0 '40 passed, 0 failed'

# the commands and the script
part tests/commands.sh 1 '3 cases agree, 1 differ'
ends 'a command differs' 1 '78 passed, 1 failed'
part tests/commands.sh 2
ends 'the commands break' 1 '75 passed, 1 failed'
part tests/commands.sh 1 '4 cases agree, 0 differ'
ends 'the commands fail at their end' 1 '79 passed, 1 failed'
part tests/commands.sh 0 '4 cases agree, 0 differ'
rm tests/script.sh
ends 'no script' 1 '74 passed, 1 failed'
part tests/script.sh 0 '5 cases agree, 0 differ'

# the scripts of bursts, and the driver on them
part tests/bursts.sh 1 '000-empty: status 0, line 1 should be' '6 cases agree, 1 differ'
ends 'a script differs' 1 '78 passed, 1 failed'
tells 'a script differs' '000-empty: status 0, line 1 should be'
part tests/bursts.sh 1 'bursts.c: it does not build'
ends 'bursts.c does not build' 1 '72 passed, 1 failed'
tells 'bursts.c does not build' 'bursts.c: it does not build'
part tests/bursts.sh 0
ends 'no count of scripts' 1 '72 passed, 1 failed'
part tests/bursts.sh 2 'bursts.c: not run: no C compiler for x86-64 (tried cc)'
rm target/bursts
cargo 0 6 0 3 ''
ends 'no compiler for bursts.c' 1 '71 passed, 1 failed'
tells 'no compiler for bursts.c' 'not run: tests/bursts.sh (bursts.c: not run: no C compiler for x86-64 (tried cc))'
tells 'no compiler for bursts.c' 'without --bursts target/bursts'
tells 'no compiler for bursts.c' 'with --judge-c target/judge'
part tests/bursts.sh 0 '7 cases agree, 0 differ'
program target/bursts 'exit 0'
ends 'the driver breaks' 1 '78 passed, 1 failed'
tells 'the driver breaks' 'with --bursts target/bursts'
tells 'the driver breaks' 'with --judge ./judge'

# the scripts of logs, and the driver on them
part tests/judge.sh 1 '000-empty: status 0, line 2 should be' '6 cases agree, 2 differ'
cargo 0 6 0 0 ''
ends 'two logs differ' 1 '77 passed, 2 failed'
tells 'two logs differ' '000-empty: status 0, line 2 should be'
part tests/judge.sh 1 'judge.c: it does not build'
ends 'judge.c does not build' 1 '71 passed, 1 failed'
part tests/judge.sh 2 'judge.c: not run: no C compiler for x86-64 (tried cc)'
rm target/judge
cargo 0 6 0 3 ''
ends 'no compiler for judge.c' 1 '70 passed, 1 failed'
tells 'no compiler for judge.c' 'not run: tests/judge.sh (judge.c: not run: no C compiler for x86-64 (tried cc))'
tells 'no compiler for judge.c' 'without --judge-c target/judge'
tells 'no compiler for judge.c' 'with --bursts target/bursts'
part tests/judge.sh 0 '8 cases agree, 0 differ'
program target/judge 'exit 0'

# cargo
cargo 101 4 2 0 ''
ends 'tests fail' 1 '77 passed, 2 failed'
cargo 101 '' '' 0 ''
ends 'tests do not compile' 1 '73 passed, 1 failed'
cargo 0 6 0 1 'seed 7: line 3 of the answers differs'
ends 'the driver differs' 1 '78 passed, 1 failed'
tells 'the driver differs' 'seed 7: line 3 of the answers differs'
cargo 0 6 0 2 'usage: driver'
ends 'the driver is not called right' 1 '78 passed, 1 failed'
rm bin/cargo
ends 'no cargo' 0 '71 passed, 0 failed'
tells 'no cargo' "not run: the model's tests and the driver: no cargo"
cargo 0 6 0 0 ''

# the host and the bench
part examples/host.sh 2 'host.c: not run: no C compiler for x86-64 (tried cc)'
part bench/run 2 'bench: gcc is missing'
ends 'no compiler' 0 '77 passed, 0 failed'
tells 'no compiler' 'not run: examples/host.sh (host.c: not run: no C compiler for x86-64 (tried cc))'
tells 'no compiler' 'not run: bench/run (bench: gcc is missing)'
part examples/host.sh 1 '3c3'
ends 'the host differs' 1 '77 passed, 1 failed'
part bench/run 1 'bench: the answers differ'
ends 'the bench differs too' 1 '77 passed, 2 failed'
tells 'the bench differs too' 'bench: the answers differ'
part examples/host.sh 0 'as expected'
part bench/run 0 'the same'

# the programs
program replay 'exit 3'
ends 'a program that breaks' 1 '76 passed, 3 failed'
rm replay
ends 'no program' 1 '76 passed, 3 failed'
rm judge
ends 'no judge' 1 '75 passed, 4 failed'
rm tests/corpus/*
ends 'no corpus' 1 '74 passed, 1 failed'
echo 'the gate counts right'
