#!/bin/sh
# Times the archive beside C: a million heaps on which all agree; then the same programs linked in ORDERS orders, ROUNDS
# alternating rounds each, since where code lies in memory moves time; a table, and a picture in
# target/bench/performance.svg. Nothing here is a test.
#   ORDERS=8 ROUNDS=21 bench/run.sh
#   BEFORE=module.ll bench/run.sh         the archive before beside it: bench/module.sh says which module that is
#   PROGRAMS='collecting trees' bench/run.sh    only these programs
set -eu
cd "$(dirname "$0")/.."
made=target/bench
orders=${ORDERS:-8}
bench/build.sh time "$orders"
$made/time-agree 1000000
rm -f $made/times.*
programs="collecting calling allocating growth writing reading trees${BEFORE:+ lisping}"
order=1
while [ $order -le "$orders" ]; do
    echo "bench: order $order of $orders" >&2
    for program in ${PROGRAMS:-$programs}; do
        $made/time-$program.$order "${ROUNDS:-21}"
    done >$made/times.$order
    order=$((order + 1))
done
picture="--picture $made/performance.svg"
[ -z "${PROGRAMS:-}" ] || picture= # it shows all of them
# shellcheck disable=SC2086
python3 bench/table.py bench/counts.txt $made/times.* $picture | tee $made/table.txt
