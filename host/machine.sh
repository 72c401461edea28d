# What host/run and bench/run share; sourced from the repository's folder. It sets
#   compiler  makes x86-64 programs, with the flags in $link
#   emulator  runs them; empty on x86-64
#   archive   the library, which it builds if it is missing or older than the crates
# and installs the compiler if it is missing.

die() {
    echo "$0: $*" >&2
    exit 2
}

as_root() {
    if [ "$(id -u)" -eq 0 ]; then "$@"; else sudo "$@"; fi
}

# A compiler without the C library's headers and archives cannot do this.
can_compile() {
    printf '#include <stdio.h>\nint main(void) { return puts("") < 0; }\n' |
        $compiler -x c - $link -o "$build/can-compile" 2>/dev/null
}

# need TEST PACKAGE..: installs the packages if the test fails, and tries it once more.
need() {
    works=$1
    shift
    "$works" && return
    as_root apt-get update >&2 && as_root apt-get install -y "$@" >&2
    "$works" || die "a compiler does not work; install $*"
}

# compile PROGRAM FLAG.. SOURCE..
compile() {
    program=$1
    shift
    $compiler -std=c99 -Wall -Wextra -Wpedantic -Werror -Iinclude -Ihost "$@" "$archive" $link -o "$build/$program"
}

# run PROGRAM ARGUMENT..
run() {
    program=$1
    shift
    ${emulator:+"$emulator"} "$build/$program" "$@"
}

build=target/c
mkdir -p "$build"
machine=$(uname -m)
case $machine in
x86_64)
    compiler=cc link= emulator=
    need can_compile gcc libc6-dev
    ;;
aarch64)
    # The archive links only into x86-64 programs, and the emulator finds no shared libraries for them.
    compiler=x86_64-linux-gnu-gcc link=-static
    guide=$(rt doc) || die "rt of the Rattle kit is needed"
    emulator=$(dirname "$guide")/on/$machine/toolchain/bin/qemu-x86_64
    [ -x "$emulator" ] || die "a kit with an emulator for $machine is needed"
    need can_compile gcc-x86-64-linux-gnu libc6-dev-amd64-cross
    ;;
*)
    die "x86-64 or Arm is needed, not $machine"
    ;;
esac

archive=target/staticlib/libcedar.a
host/library || die "libcedar.a cannot be built"
