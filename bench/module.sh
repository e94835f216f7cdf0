#!/bin/sh
# Makes what the programs of bench/ link, in target/bench:
#   libphachunoi.a    the archive, proved
#   engine.o          its collector by itself: the LLVM module that the archive is compiled from, with one function left to
#                     call from outside, engine::collect_sound, compiled by the same clang with the same words
#   own/library.o, own/engine.o   both for this machine's processor; on x86-64 they are the archive's object and engine.o
#   before.o, own/before.o   the archive before, if BEFORE names the module that was kept when this script ran on an
#                     earlier revision (its target/bench/module.ll): phachunoi_check is before_check in it, and so on
# The module is kept by a clang that rt is shown, with the words that it is called with: rt and its library are copied to a
# folder of links to the kit, since they look for all else beside themselves, and only that command is another there.
set -eu
cd "$(dirname "$0")/.."
made=$PWD/target/bench
machine=$(uname -m)
home=${RATTLE_HOME:-$(dirname "$(dirname "$(readlink -f "$(command -v rt)")")")}
kit=$made/kit

# Links in the folder $2 to all that the folder $1 has, but for the names after them.
link_all() {
    from=$1 to=$2
    shift 2
    mkdir -p "$to"
    for file in "$from"/*; do
        case " $* " in *" $(basename "$file") "*) continue ;; esac
        ln -sfn "$file" "$to/$(basename "$file")"
    done
}

show_kit() {
    rm -rf "$kit"
    link_all "$home" "$kit" bin toolchain
    link_all "$home/bin" "$kit/bin" rt rtlib.py
    cp "$home/bin/rt" "$home/bin/rtlib.py" "$kit/bin/"
    link_all "$home/toolchain" "$kit/toolchain" bin
    link_all "$home/toolchain/bin" "$kit/toolchain/bin" clang
    cat >"$kit/toolchain/bin/clang" <<END
#!/bin/sh
for word in "\$@"; do
    case \$word in
    *.bc) cp "\$word" "$made/module.bc" ;;
    -x | ir | -o | *.o) ;;
    *) echo "\$word" ;;
    esac
done >"$made/words"
exec "$home/toolchain/bin/clang" "\$@"
END
    chmod +x "$kit/toolchain/bin/clang"
}

# By the words that rattle calls clang with, but for the files.
compile() {
    xargs -d '\n' tools/cc.sh kit-clang -x ir "$1" -o "$2" <"$made/words"
}

# The module for another processor: without data layout and without what only x86-64 has; nothing else differs. On
# x86-64 a struct that is returned in memory has its address as the first argument and as the result; elsewhere C may
# pass that address in a register of its own, which is what sret stands for.
compile_own() {
    sed -e '/^target datalayout/d' -e "s/^target triple.*/target triple = \"$machine-unknown-linux-gnu\"/" \
        -e 's/"target-cpu"="[^"]*"//' -e 's/"probe-stack"="inline-asm"//' \
        -e '/^define noundef ptr @\(phachunoi\|before\)_/,/^}/{' \
        -e 's/^define noundef ptr \(@[a-z_]*\)(ptr noundef %a0/define void \1(ptr sret([24 x i8]) %a0/' \
        -e 's/ret ptr %a0/ret void/' -e '}' "$1" >"$2.ll"
    tools/cc.sh kit-clang "--target=$machine-unknown-linux-gnu" -ffunction-sections -fdata-sections \
        -Wno-override-module -fPIC -O3 -c -x ir "$2.ll" -o "$2"
}

mkdir -p "$made/own"
rm -f "$made/module.bc" "$made/words"
show_kit
rm -f crates/phachunoi/out/libphachunoi.a
(cd crates/phachunoi && "$kit/bin/rt" lib) >"$made/lib.out" 2>&1 || { cat "$made/lib.out"; exit 1; }
grep '^logic=' "$made/lib.out" | tail -n 1 | grep -q '^logic=proved' || {
    echo "bench: the archive is not proved: see $made/lib.out" >&2
    exit 1
}
cp crates/phachunoi/out/libphachunoi.a "$made/"

tools/cc.sh kit-clang --target=x86_64-unknown-linux-gnu -x ir -S -emit-llvm -O0 -Xclang -disable-llvm-passes \
    "$made/module.bc" -o "$made/module.ll"
sed -e 's/^define \(.*@phachunoi_\)/define internal \1/' -e 's/^define internal \(.*@"engine::collect_sound"\)/define \1/' \
    "$made/module.ll" >"$made/engine.ll"
compile "$made/engine.ll" "$made/engine.o"

# The kept module is the archive's: it compiles to the same object.
compile "$made/module.bc" "$made/library.o"
tools/cc.sh kit-ar p "$made/libphachunoi.a" >"$made/archived.o"
cmp "$made/library.o" "$made/archived.o" || { echo "bench: the module that was kept is not the archive's" >&2; exit 1; }
if [ "$machine" = x86_64 ]; then
    cp "$made/library.o" "$made/engine.o" "$made/own/"
else
    compile_own "$made/module.ll" "$made/own/library.o"
    compile_own "$made/engine.ll" "$made/own/engine.o"
fi

[ -n "${BEFORE:-}" ] || exit 0
sed 's/@phachunoi_/@before_/g' "$BEFORE" >"$made/before.ll"
compile "$made/before.ll" "$made/before.o"
if [ "$machine" = x86_64 ]; then
    cp "$made/before.o" "$made/own/"
else
    compile_own "$made/before.ll" "$made/own/before.o"
fi
