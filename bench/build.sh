#!/bin/sh
# Builds the programs of bench/ in target/bench. If BEFORE names the module of an earlier revision (bench/module.sh), that
# archive is a contender too, and there is a program for the Lisp.
#   bench/build.sh count    for x86-64, with the kit's C library: the same instructions on every machine
#   bench/build.sh time N   for this machine's processor, with its C library: each linked in N orders
set -eu
cd "$(dirname "$0")/.."
made=target/bench
words="-std=c99 -O3 -Wall -Wextra -Wpedantic -Werror -Iinclude"
shared="bench/rounds.c bench/workloads.c bench/contenders.c bench/baseline.c bench/full_check.c bench/twins.c bench/twin_texts.c bench/twin_reader.c bench/nothing.c tests/c/random.c"
model="tests/c/model.c tests/c/texts.c tests/c/heaps.c tests/c/codes.c tests/c/tuples.c tests/c/grammar.c"
counted="$made/engine.o $made/libphachunoi.a"
own="$made/own/engine.o $made/own/library.o"

bench/module.sh
if [ -n "${BEFORE:-}" ]; then
    words="$words -DWITH_BEFORE"
    shared="$shared bench/before.c"
    counted="$made/before.o $counted"
    own="$own $made/own/before.o"
fi
case $1 in
count)
    for program in collecting calling allocating growth writing reading; do
        # shellcheck disable=SC2086
        tools/cc.sh kit-build $made/count-$program $words bench/$program.c $shared $model $counted
    done
    ;;
time)
    # shellcheck disable=SC2086
    tools/cc.sh own-build $made/time-agree $words bench/agree.c $shared $model $own
    for program in collecting calling allocating growth writing reading; do
        # shellcheck disable=SC2086
        tools/cc.sh own-orders "$2" $made/time-$program $words bench/$program.c $shared $model $own
    done
    libgc="-DWITH_LIBGC -lgc"
    tools/cc.sh has /usr/include/gc.h libgc-dev || {
        echo "bench: libgc is left out: the Debian package 'libgc-dev' is not installed"
        libgc=
    }
    # shellcheck disable=SC2086
    tools/cc.sh own-orders "$2" $made/time-trees $words $libgc bench/trees.c $shared $own
    [ -n "${BEFORE:-}" ] || exit 0
    # shellcheck disable=SC2086
    tools/cc.sh own-joined $made/own/lisp_now.o lisp_now $words -Dmain=lisp_now examples/lisp/*.c
    # shellcheck disable=SC2086
    tools/cc.sh own-joined $made/own/lisp_before.o lisp_before $words -include bench/before.h -Dmain=lisp_before examples/lisp/*.c
    # shellcheck disable=SC2086
    tools/cc.sh own-orders "$2" $made/time-lisping $words bench/lisping.c $shared $own $made/own/lisp_now.o $made/own/lisp_before.o
    ;;
esac
