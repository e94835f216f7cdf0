#!/bin/sh
# Counts the instructions of the x86-64 code, in the emulator, and holds them against those stored in bench/counts.txt.
#   bench/count.sh          the exit status is 1 if a count differs
#   bench/count.sh store    stores them
#   BEFORE=module.ll bench/count.sh    the archive before beside it (bench/module.sh). Nothing is stored or compared: in
#                           programs that have another archive too, code lies elsewhere, which moves counts by one or two
set -eu
cd "$(dirname "$0")/.."
made=target/bench
bench/build.sh count
for program in collecting calling allocating growth writing reading; do
    tools/cc.sh kit-count $made/$program.log $made/count-$program count >$made/$program.said
    python3 bench/table.py --join $made/$program.said $made/$program.log
done >$made/counts.txt
python3 bench/table.py $made/counts.txt
[ -z "${BEFORE:-}" ] || exit 0
if [ "${1:-}" = store ]; then
    cp $made/counts.txt bench/counts.txt
    echo "bench: bench/counts.txt has these counts now"
else
    python3 bench/table.py --compare bench/counts.txt $made/counts.txt
fi
