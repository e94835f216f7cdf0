#!/bin/sh
# How to compile, link and run C on this machine; no other file knows. The archive is for x86-64.
#   tools/cc.sh build OUT WORDS..   compiles the .c files among WORDS and links them, with the .a files, to the program OUT
#   tools/cc.sh compile WORDS..     compiles only: WORDS are the compiler's, with '-x c++' for C++
#   tools/cc.sh run OUT WORDS..     runs a program so made
# On x86-64 that is the system's cc. On Arm clang makes x86-64 objects, the kit's linker joins them with the kit's C
# library, and an emulator runs them: the kit's, or Debian's where the kit has none.
#
# For bench/, so that the same instructions run on every machine: the kit's clang, which compiles Rattle too, its linker
# and its C library.
#   tools/cc.sh kit-clang WORDS..          runs that clang; kit-ar WORDS.. its archiver
#   tools/cc.sh kit-build OUT WORDS..      as build; object files may be among WORDS
#   tools/cc.sh kit-count LOG OUT WORDS..  the same in Debian's emulator, which writes to LOG what its plugin
#                                          bench/icount.c counts
#   tools/cc.sh has FILE PACKAGE           whether a file is there, once its Debian package may have been installed
#   tools/cc.sh own-build OUT WORDS..      as kit-build, but for this machine's processor and with its C library
#   tools/cc.sh own-joined OUT NAME WORDS..  one object OUT of the .c files, of which only the function NAME can be called
#   tools/cc.sh own-orders N OUT WORDS..   N such programs, OUT.1 to OUT.N, that differ in the order of their objects
set -u

die() {
    echo "tools/cc.sh: $*" >&2
    exit 2
}

there() { [ -e "$1" ] || command -v "$1" >/dev/null 2>&1; }

# The command or file $1; if it is missing, the Debian package $2 is installed by name where that can be done.
has() {
    there "$1" && return
    if [ "$(id -u)" = 0 ] && there apt-get; then
        apt-get install -y "$2" >/dev/null 2>&1 || true
    fi
    there "$1"
}

need() {
    has "$1" "$2" || die "'$1' is missing: install the Debian package '$2' (as root: apt-get install $2)"
}

find_kit() {
    kit=${RATTLE_HOME:-}
    if [ -z "$kit" ]; then
        command -v rt >/dev/null 2>&1 || die "'rt' is not in PATH and RATTLE_HOME is not set: the kit's linker is needed"
        kit=$(dirname "$(dirname "$(readlink -f "$(command -v rt)")")")
    fi
    tools=$kit/toolchain
    lib=$tools/lib
    [ -x "$tools/bin/ld.lld" ] || die "no linker in $tools/bin: is this the kit for $machine?"
}

compile_native() {
    need cc gcc
    need /usr/include/stdio.h libc6-dev
    case " $* " in *" c++ "*) need c++ g++ && c++ "$@" ;; *) cc "$@" ;; esac
}

# The C library's headers are those of the machine: the parts used here are the same on both.
compile_for_x86() {
    need clang clang
    need "/usr/include/$machine-linux-gnu" libc6-dev
    clang -target x86_64-linux-gnu -fPIE -idirafter "/usr/include/$machine-linux-gnu" "$@"
}

# The kit's clang has no headers of its own: those of the machine's compiler are the same in what is used here.
kit_clang() {
    need cc gcc
    need /usr/include/stdio.h libc6-dev
    find_kit
    "$tools/bin/clang" "$@"
}

compile_by_kit() {
    kit_clang --target=x86_64-unknown-linux-gnu -march=x86-64 -fPIE -idirafter "$(cc -print-file-name=include)" \
        -idirafter "/usr/include/$machine-linux-gnu" "$@"
}

compile_by_kit_for_here() {
    kit_clang "--target=$machine-unknown-linux-gnu" -fPIE -idirafter "$(cc -print-file-name=include)" "$@"
}

# One object for each .c file among the words, by the compiler $1, in the folder $2.objects.
compile_each() {
    compiler=$1 out=$2
    shift 2
    flags='' sources='' archives='' objects=''
    for word in "$@"; do
        case $word in
        *.c) sources="$sources $word" ;;
        *.a | -l* | -L*) archives="$archives $word" ;;
        *.o) objects="$objects $word" ;;
        *) flags="$flags $word" ;;
        esac
    done
    mkdir -p "$out.objects"
    for source in $sources; do
        object=$out.objects/$(basename "$source" .c).o
        # shellcheck disable=SC2086
        $compiler $flags -c "$source" -o "$object" || exit 1
        objects="$objects $object"
    done
}

# Those objects, and the kit's linker and C library.
build_for_x86() {
    find_kit
    compile_each "$@"
    # shellcheck disable=SC2086
    "$tools/bin/ld.lld" -pie --dynamic-linker "$lib/ld-linux-x86-64.so.2" -o "$out" "$lib/Scrt1.o" "$lib/crti.o" \
        "$lib/crtbeginS.o" $objects $archives "$lib/libc.so.6" "$lib/libc_nonshared.a" "$lib/libgcc.a" \
        "$lib/crtendS.o" "$lib/crtn.o"
}

# Those objects, and the machine's linker and C library.
build_for_here() {
    compile_each compile_by_kit_for_here "$@"
    # shellcheck disable=SC2086
    cc -o "$out" $objects $archives
}

join_for_here() {
    name=$2 out=$1
    shift 2
    compile_each compile_by_kit_for_here "$out" "$@"
    # shellcheck disable=SC2086
    cc -r -nostdlib -o "$out" $objects && objcopy "--keep-global-symbol=$name" "$out"
}

# From one program to the next the first object goes last, so that each function lies elsewhere.
build_orders_for_here() {
    orders=$1 order=1
    shift
    compile_each compile_by_kit_for_here "$@"
    while [ $order -le "$orders" ]; do
        # shellcheck disable=SC2086
        cc -o "$out.$order" $objects $archives || exit 1
        # shellcheck disable=SC2086
        set -- $objects
        first=$1
        shift
        objects="$* $first"
        order=$((order + 1))
    done
}

# -cpu Nehalem: the C library then clears words by plain stores, which the emulator counts as a processor would run them.
count_by_plugin() {
    need qemu-x86_64 qemu-user
    find_kit
    log=$1 plugin=$1.plugin.so
    shift
    compile_native -O2 -fPIC -shared bench/icount.c -o "$plugin" || exit 1
    qemu-x86_64 -cpu Nehalem -d plugin -D "$log" -plugin "$plugin" -E LD_LIBRARY_PATH="$lib" "$@"
}

run_emulated() {
    find_kit
    emulator=$tools/bin/qemu-x86_64
    [ -x "$emulator" ] || { need qemu-x86_64 qemu-user && emulator=qemu-x86_64; }
    exec "$emulator" -E LD_LIBRARY_PATH="$lib" "$@"
}

machine=$(uname -m)
[ "$(uname -s)" = Linux ] || die "only Linux is known here"
[ $# -ge 1 ] || die "usage: tools/cc.sh build|compile|run|kit-..|own-build .."
what=$1
shift
case $machine-$what in
x86_64-build) out=$1 && shift && compile_native "$@" -o "$out" ;;
x86_64-compile) compile_native "$@" ;;
x86_64-run) exec "$@" ;;
aarch64-build) build_for_x86 compile_for_x86 "$@" ;;
aarch64-compile) compile_for_x86 "$@" ;;
aarch64-run) run_emulated "$@" ;;
*-has) has "$@" ;;
*-kit-clang) kit_clang "$@" ;;
*-kit-ar) find_kit && "$tools/bin/llvm-ar" "$@" ;;
*-kit-build) build_for_x86 compile_by_kit "$@" ;;
*-kit-count) count_by_plugin "$@" ;;
*-own-build) build_for_here "$@" ;;
*-own-joined) join_for_here "$@" ;;
*-own-orders) build_orders_for_here "$@" ;;
*) die "no way is known to do '$what' on $machine" ;;
esac
