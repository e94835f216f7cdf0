#!/bin/sh
# Copies what stands under dist/ to a place of its own, or takes it away again.
#   tools/install.sh install PLACE      PLACE/include, PLACE/lib and PLACE/lib/pkgconfig get the files
#   tools/install.sh uninstall PLACE    removes these files; folders stay
#   tools/install.sh words PLACE        prints what a compiler is told to find them, by the pkg-config file there
set -eu
cd "$(dirname "$0")/.."
files="include/phachunoi.h include/phachunoi_show.h lib/libphachunoi.a lib/pkgconfig/phachunoi.pc"

install_files() {
    for file in $files; do
        install -D -m 644 "dist/$file" "$place/$file"
    done
}

uninstall_files() {
    for file in $files; do
        rm -f "$place/$file"
    done
}

# pkg-config's answer; where there is none, what it would put for the names in the file.
words() {
    folder=$place/lib/pkgconfig
    if command -v pkg-config >/dev/null 2>&1; then
        PKG_CONFIG_LIBDIR=$folder pkg-config --cflags --libs phachunoi
    else
        sed -n "s|\${prefix}|$folder/../..|g; s/^Cflags: //p; s/^Libs: //p" "$folder/phachunoi.pc" | paste -sd ' '
    fi
}

place=${2:?usage: tools/install.sh install|uninstall|words PLACE}
case $1 in
install) install_files ;;
uninstall) uninstall_files ;;
words) words ;;
*) echo "tools/install.sh: no way is known to '$1'" >&2 && exit 2 ;;
esac
