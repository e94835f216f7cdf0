#!/bin/sh
# Every test in C: the headers by themselves, the examples, what is installed, then the archive against the model.
#   tests/c/run.sh ARCHIVE [SEED]
# The last line is 'check-c: N calls, M checks, 0 differences (seed S)'; the exit status is 0 only if all is equal.
set -u
cd "$(dirname "$0")/../.."
archive=$1
made=target/c
warnings="-Wall -Wextra -Wpedantic -Werror"
mkdir -p $made

fail() {
    echo "check-c: failed: $*"
    exit 1
}

# The words a compiler gets for a program of this repository.
build() {
    out=$1
    shift
    # shellcheck disable=SC2086
    tools/cc.sh build "$made/$out" -std=c99 -O2 $warnings -Iinclude "$@" || fail "$out does not build"
}

# Each header alone, through the file of its own in tests/c/header.
headers() {
    for standard in "c -std=c99" "c -std=c11" "c++ -std=c++11"; do
        for file in tests/c/header/*.c; do
            # shellcheck disable=SC2086
            tools/cc.sh compile -x $standard $warnings -Iinclude -c "$file" -o $made/header.o ||
                fail "$file as -x $standard"
        done
        echo "check-c: the headers compile as -x $standard"
    done
}

# The small example $1 prints what stands beside it. $2 says what it shows.
example() {
    build "$1" "examples/$1.c" "$archive"
    tools/cc.sh run "$made/$1" >"$made/$1.out" || fail "examples/$1.c"
    cmp -s "$made/$1.out" "examples/$1.out" || fail "examples/$1.c prints something else than examples/$1.out"
    echo "check-c: $2"
}

# docs/EMBEDDING.md shows the file $1.
in_docs() {
    text=$(sed 's/^/    /' "$1")
    case $(cat docs/EMBEDDING.md) in *"$text"*) ;; *) fail "docs/EMBEDDING.md does not show $1" ;; esac
}

# The README's sample is a whole program but for its headers.
sample() {
    {
        printf '#include <%s.h>\n' stdio stdlib phachunoi
        sed -n '/^```c$/,/^```$/{/^```/!p;}' README.md
    } >$made/sample.c
    build sample $made/sample.c "$archive"
    [ "$(tools/cc.sh run $made/sample)" = "field 0 is 23" ] || fail "the README's sample"
    echo "check-c: the README's sample"
}

# The pictures of docs/ are those of today's code: the program writes them again.
pictures() {
    build picture examples/picture.c "$archive"
    tools/cc.sh run $made/picture $made || fail "examples/picture.c"
    for file in p5-before.txt p5-before.dot p5-after.txt p5-after.dot; do
        cmp -s "$made/$file" "docs/$file" || fail "docs/$file is not what examples/picture.c writes: make picture"
    done
    in_docs docs/p5-before.txt
    in_docs docs/p5-after.txt
    echo "check-c: the pictures"
}

# The image in docs/ is the last one of the example, which is that of both heaps once they are collected.
image() {
    example image "images of two heaps of one graph"
    sed '1,/^collected again/d' examples/image.out >$made/image.last
    in_docs $made/image.last
}

# What `make install` puts somewhere is all that a host needs, found through the pkg-config file.
installed() {
    place=$made/installed/usr
    rm -rf $made/installed
    tools/install.sh install "$place" || fail "tools/install.sh install"
    words=$(tools/install.sh words "$place") || fail "the pkg-config file"
    # shellcheck disable=SC2086
    tools/cc.sh build $made/tuple -std=c99 $warnings examples/tuple.c $words || fail "examples/tuple.c, as installed"
    tools/cc.sh run $made/tuple | cmp -s - examples/tuple.out || fail "examples/tuple.c, as installed, prints something else"
    tools/install.sh uninstall "$place" || fail "tools/install.sh uninstall"
    [ -z "$(find $made/installed -type f)" ] || fail "tools/install.sh uninstall leaves $(find $made/installed -type f)"
    echo "check-c: installed, found, linked, uninstalled"
}

headers
example tuple "the smallest embedding"
example closure "closures with code words"
example text "a value as text"
image
sample
pictures
installed
build lisp examples/lisp/*.c "$archive"
sh tests/c/lisp.sh $made/lisp || fail "the interpreter"
build check -Iexamples tests/c/*.c "$archive"
tools/cc.sh run $made/check 1000000 ${2:-}
