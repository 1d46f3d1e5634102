# What bursts.sh and judge.sh have in common, which take these lines into their own: a program in C over the functions of hfsc.h, run on stored scripts. `name` is
# set before: NAME.c is the program, NAME/ has the scripts, NAME.script, with NAME.out, what must be printed.
# With no argument NAME.c is built, with the static library of the crate `host_c`, as target/NAME; else the argument, a command, is taken in its place. All scripts are run.
# It prints a line for each that differs, with the first line that does, and ends with `N cases agree, M differ`.
# Exit status: 0 all agree; 1 it does not build, or a case differs; 2 not run, for want of rt or of a C compiler for x86-64.
# The library is for x86-64; ../examples/x86-64.sh has the compiler for it.
set -u
say() { # STATUS WORDS
    echo "$name.c: $2"
    exit "$1"
}

# Leaves target/NAME, a script that runs the program, which is beside it.
build() {
    mkdir -p "$root/target" || say 1 'no folder for it'
    rm -f "$root/target/$name"
    command -v rt >/dev/null || say 2 'not run: no rt on the PATH'
    . "$root/examples/x86-64.sh"
    can_compile "$root/target/$name.x86-64" || say 2 "not run: no C compiler for x86-64 (tried $compile)"
    (cd "$root" && library) || say 1 'the library is not built'
    # shellcheck disable=SC2086
    $compile -std=c99 -Wall -Wextra -pedantic -O2 -I"$root/crates/host/include" -o "$root/target/$name.x86-64" "$root/tests/$name.c" \
        "$root/target/staticlib/libhost.a" || say 1 'it does not build'
    # shellcheck disable=SC2016
    printf '#!/bin/sh\nexec %s "$(dirname "$0")/%s.x86-64"\n' "$run" "$name" >"$root/target/$name"
    chmod +x "$root/target/$name"
}

[ $# -le 1 ] || { echo "usage: $name.sh [PROGRAM]" >&2; exit 2; }
root=$(cd "$(dirname "$0")/.." && pwd) || exit 2
room=$(mktemp -d) || exit 2
trap 'rm -rf "$room"' EXIT
if [ $# -eq 1 ]; then
    program=$1
else
    build
    program="'$root/target/$name'"
fi

# The first line that is not as it should be.
first_difference() { # EXPECTED PRINTED
    awk '
        NR == FNR { should[NR] = $0; next }
        should[FNR] != $0 { print "line " FNR " should be `" should[FNR] "` and is `" $0 "`"; found = 1; exit }
        END { if (!found) print "it ends in another way" }' "$1" "$2"
}

agree=0 differ=0
for script in "$root/tests/$name"/*.script; do
    [ -e "$script" ] || continue
    case=${script%.script}
    sh -c "$program" <"$script" >"$room/printed"
    status=$?
    if [ "$status" -eq 0 ] && cmp -s "$case.out" "$room/printed"; then
        agree=$((agree + 1))
    else
        differ=$((differ + 1))
        echo "${case##*/}: status $status, $(first_difference "$case.out" "$room/printed")"
    fi
done
echo "$agree cases agree, $differ differ"
[ "$agree" -gt 0 ] && [ "$differ" -eq 0 ]
