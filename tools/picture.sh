#!/bin/sh
# Draws the heap P5 before and after its collection into docs/: as text, as a graph, and the graph as a picture.
set -eu
cd "$(dirname "$0")/.."
tools/cc.sh has dot graphviz || {
    echo "tools/picture.sh: 'dot' is missing: install the Debian package 'graphviz' (as root: apt-get install graphviz)" >&2
    exit 2
}
mkdir -p target/c
tools/cc.sh build target/c/picture -std=c99 -O2 -Iinclude examples/picture.c dist/lib/libphachunoi.a
tools/cc.sh run target/c/picture docs
for graph in docs/p5-before docs/p5-after; do
    dot -Tsvg "$graph.dot" >"$graph.svg"
done
echo "docs/ has p5-before and p5-after, each as .txt, .dot and .svg"
