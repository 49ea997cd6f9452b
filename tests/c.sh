# How a C program that links the proved library is built and run, on x86-64 and on Arm, where it runs under the kit's emulator.
# Sourced at the root of the repository. With SANITIZED=1 in the environment a program is built with the compiler's sanitizers, for
# x86-64: a wrong address or undefined behaviour in its C ends it.

library=crates/shtegomir/out/libshtegomir.a
estimate=crates/estimate/out/estimate
warnings='-std=c99 -D_POSIX_C_SOURCE=199309L -Wall -Wextra -Werror -Iinclude'
sanitizers='-g -O1 -fsanitize=address,undefined -fno-sanitize-recover=all'

# Where the programs of the tests are built, and how.
if [ -n "${SANITIZED-}" ]; then
    built=target/tests/sanitized
    optimised=$sanitizers
else
    built=target/tests
    optimised=-O3
fi

# Builds the library, and proves before what is not proved yet.
build_library() {
    said=$(cd crates/shtegomir && rt lib 2>&1) && [ -f "$library" ] || { printf '%s\n' "$said" | tail -n 20; return 1; }
}

# Builds the program likewise, as the office does.
build_program() {
    said=$(./run < crates/estimate/stdin 2>&1 > /dev/null) && [ -f "$estimate" ] || { printf '%s\n' "$said" | tail -n 20; return 1; }
}

# Whether there are sanitizers here: a program is built with them, and runs.
can_sanitize() {
    [ "$(uname -m)" = x86_64 ] || return 1
    mkdir -p target/tests || return 1
    # shellcheck disable=SC2086
    printf 'int main(void) { return 0; }\n' | cc $sanitizers -x c - -o target/tests/can_sanitize 2> /dev/null &&
        target/tests/can_sanitize > /dev/null 2>&1
}

# A seed that was not there before.
fresh_seed() {
    od -An -N4 -tu4 /dev/urandom | tr -d ' '
}

# again COMMAND..: what to type to run what failed once more.
again() {
    printf 'again by: %s%s\n' "${SANITIZED:+SANITIZED=$SANITIZED }" "$*"
}

# build_c PROGRAM SOURCE..
build_c() {
    program=$1
    shift
    mkdir -p "$(dirname "$program")" || return 1
    case $(uname -m) in
        x86_64)
            # shellcheck disable=SC2086
            cc $warnings $optimised "$@" "$library" -o "$program"
            ;;
        aarch64)
            tools=$(dirname "$(dirname "$(rt doc)")")/on/aarch64/toolchain
            objects=()
            for source in "$@"; do
                object=$program-$(basename "$source" .c).o
                # shellcheck disable=SC2086
                clang --target=x86_64-linux-gnu -I/usr/include/aarch64-linux-gnu $warnings $optimised -fPIE -c "$source" -o "$object" || return 1
                objects+=("$object")
            done
            "$tools/bin/ld.lld" -pie -o "$program" --dynamic-linker /lib64/ld-linux-x86-64.so.2 \
                "$tools/lib/Scrt1.o" "$tools/lib/crti.o" "$tools/lib/crtbeginS.o" "${objects[@]}" "$library" \
                "$tools/lib/libc.so.6" "$tools/lib/libc_nonshared.a" "$tools/lib/libgcc.a" \
                "$tools/lib/crtendS.o" "$tools/lib/crtn.o"
            ;;
        *)
            printf 'no way to build C here: the machine is %s\n' "$(uname -m)"
            return 1
            ;;
    esac
}

# run_c PROGRAM ARGUMENT..
run_c() {
    case $(uname -m) in
        x86_64) "$@" ;;
        *)
            tools=$(dirname "$(dirname "$(rt doc)")")/on/aarch64/toolchain
            "$tools/bin/qemu-x86_64" "$tools/lib/ld-linux-x86-64.so.2" --library-path "$tools/lib" "$@"
            ;;
    esac
}
