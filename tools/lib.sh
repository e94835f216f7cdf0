#!/bin/sh
# Proves the boundary crate and puts what a C host needs under dist/: the archive, the headers, a pkg-config file.
set -eu
cd "$(dirname "$0")/.."
version=$(sed -n 's/^#define PHACHUNOI_VERSION_\(MAJOR\|MINOR\|PATCH\) //p' include/phachunoi.h | paste -sd.)

command -v rt >/dev/null 2>&1 || {
    echo "tools/lib.sh: 'rt' is not in PATH: the archive is made by the kit's prover" >&2
    exit 2
}
mkdir -p target
(cd crates/phachunoi && rt lib) >target/lib.out 2>&1 || {
    cat target/lib.out
    exit 1
}
grep '^logic=proved' target/lib.out | tail -n 1 | grep . || {
    echo "tools/lib.sh: the prover does not say that the crate is proved: see target/lib.out" >&2
    exit 1
}
mkdir -p dist/lib/pkgconfig dist/include
cp crates/phachunoi/out/libphachunoi.a dist/lib/
cp include/phachunoi.h include/phachunoi_show.h dist/include/
# The folder is found from the file's own place, so that dist/ can be moved as a whole.
cat >dist/lib/pkgconfig/phachunoi.pc <<END
prefix=\${pcfiledir}/../..
Name: phachunoi
Description: A heap of two halves with a proved copying collector
Version: $version
Cflags: -I\${prefix}/include
Libs: -L\${prefix}/lib -lphachunoi
END
echo "dist/ has lib/libphachunoi.a, include/phachunoi.h, include/phachunoi_show.h and lib/pkgconfig/phachunoi.pc"
