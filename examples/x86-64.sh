# The C compiler for the library of the crate `host`, which is for x86-64: host.sh and ../tests/in-c.sh take these lines into their own.
# It sets `compile`, the compiler with its flags, and `run`, what runs its programs: on another machine the cross compiler x86_64-linux-gnu-gcc, and the
# toolchain's own emulator.
case $(uname -m) in
x86_64) compile=${CC:-cc} run='' ;;
*)
    compile='x86_64-linux-gnu-gcc -static'
    run=$(dirname "$(dirname "$(readlink -f "$(command -v rt)")")")/toolchain/bin/qemu-x86_64
    ;;
esac

# Whether there is a compiler, with a C library, whose programs run here: a program of one line tells.
can_compile() { # PROGRAM, a file that it may write
    # shellcheck disable=SC2086
    printf '#include <stdio.h>\nint main(void) { return puts("") < 0; }\n' | $compile -x c -o "$1" - >/dev/null 2>&1 && $run "$1" >/dev/null 2>&1
}

# The library of the crate `host`, target/staticlib/libhost.a: proved and written where that was not done since the last change. `host_c` exports its functions.
# To be called in the repository's own folder.
library() {
    kit=$(dirname "$(dirname "$(readlink -f "$(command -v rt)")")")
    if [ -e target/staticlib/libhost.a ] && [ -z "$({
        find crates -mindepth 2 -name out -prune -o -newer target/staticlib/libhost.a -print
        find crates.txt "$kit/KIT-ID" -newer target/staticlib/libhost.a
    } 2>/dev/null | head -n 1)" ]; then return; fi
    (cd crates/host_c && rt lib) && mkdir -p target/staticlib && cp crates/host_c/out/libhost_c.a target/staticlib/libhost.a
}
