#!/bin/sh
# Builds host.c with the static library of the crate `host_c`, runs it on studio.tree, and compares what it prints with host.out. Then the three damaged
# files, and one that is longer than what is kept: the host has to stop with status 1, and to say the refusal and nothing else.
# Exit status: 0 as expected; 1 it does not build, or says something else; 2 not run, for want of rt or of a C compiler for x86-64.
# The library is for x86-64; x86-64.sh has the compiler for it.
set -u
cd "$(dirname "$0")/.." || exit 2
say() {
    echo "host.c: $2"
    exit "$1"
}
command -v rt >/dev/null || say 2 'not run: no rt on the PATH'
. examples/x86-64.sh

mkdir -p target
can_compile target/host || say 2 "not run: no C compiler for x86-64 (tried $compile)"

library || say 1 'the library is not built'
# shellcheck disable=SC2086
$compile -std=c99 -Wall -Wextra -pedantic -O2 -Icrates/host/include -o target/host examples/host.c target/staticlib/libhost.a ||
    say 1 'it does not build'

$run target/host <examples/studio.tree >target/host.out || say 1 "status $? on studio.tree"
diff target/host.out examples/host.out || say 1 'it prints something else than host.out'

# a file, and what the host says of it on standard error
refused() {
    $run target/host <"$1" >target/host.out 2>target/host.err
    [ $? -eq 1 ] || say 1 "$1 is to end with status 1"
    [ ! -s target/host.out ] || say 1 "it goes on after it was refused $1"
    echo "start refused: $2" | diff target/host.err - || say 1 "it says something else of $1"
}
refused examples/damaged-cut.tree '5 class 0'
refused examples/damaged-fit.tree '10 class 0'
refused examples/damaged-share.tree '7 class 4'
for _ in 1 2 3 4 5 6 7 8 9 10 11; do cat examples/studio.tree; done >target/host.long
refused target/host.long '5 class 0'
say 0 'as expected'
