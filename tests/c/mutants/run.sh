#!/bin/sh
# Can the tests fail? They are run against a stand-in for the archive: right (no difference), then with each of its
# deliberate mistakes (a difference, or a crash); then with each mistake that show.edits makes in phachunoi_show.h, and
# image.edits in examples/image.c.
# The last line is 'mutants: N of N caught'.
set -u
cd "$(dirname "$0")/../../.." || exit 2
made=target/c
mkdir -p $made/mistaken
in_archive=$(sed -n 's,^/\* MUTANTS \([0-9]*\) \*/$,\1,p' tests/c/mutants/standin.h)

# The whole test against the stand-in with mistake $1 of its own, and the files of folder $2 before all others.
try() {
    tools/cc.sh build $made/mutant -std=c99 -O1 -DMUTANT="$1" "-I$2" -Iinclude -Iexamples tests/c/*.c \
        tests/c/mutants/*.c || exit 2
    { tools/cc.sh run $made/mutant 20000 1 >$made/mutant.out; } 2>/dev/null # a crash is told by the status
}

# The file $2 with mistake number $3 of the edits $1, in $made/mistaken, alone. The old text must stand there once.
mistake() {
    rm -f $made/mistaken/*
    awk -v number="$3" '
        function text_of(line) { sub(/^(old|new): ?/, "", line); gsub(/\\n/, "\n", line); return line }
        FNR == NR && /^mistake: / { at++ }
        FNR == NR && at == number && /^old:/ { old = text_of($0) }
        FNR == NR && at == number && /^new:/ { new = text_of($0) }
        FNR == NR { next }
        { text = text $0 "\n" }
        END {
            place = index(text, old)
            rest = substr(text, place + length(old))
            if (old == "" || place == 0 || index(rest, old)) exit 1
            printf "%s%s%s", substr(text, 1, place - 1), new, rest
        }' "$1" "$2" >"$made/mistaken/$(basename "$2")" || {
        echo "mutants: the old text of mistake $3 of $1 does not stand once in $2"
        exit 2
    }
}

caught=0
# After a try: the status must tell of a difference. $2 is its name; prints the first part that noticed.
judge() {
    if [ "$1" -eq 0 ]; then
        echo "mutant $2: NOT CAUGHT"
    else
        caught=$((caught + 1))
        part=$(sed -n 's/^difference in \([^:]*\):.*/\1/p' $made/mutant.out | head -1)
        echo "mutant $2: caught in ${part:-a crash}"
    fi
}

# Every mistake that the edits $1 make in the file $2; $3 is its name here.
each_mistake() {
    number=1
    of=$(grep -c '^mistake: ' "$1")
    while [ $number -le "$of" ]; do
        mistake "$1" "$2" $number
        try 0 $made/mistaken
        judge $? "$3 $number"
        number=$((number + 1))
    done
    all=$((all + of))
}

try 0 include || {
    cat $made/mutant.out
    echo "mutants: the right stand-in differs from the model"
    exit 1
}
number=1
while [ $number -le "$in_archive" ]; do
    try $number include
    judge $? $number
    number=$((number + 1))
done
all=$in_archive
each_mistake tests/c/mutants/show.edits include/phachunoi_show.h show
each_mistake tests/c/mutants/image.edits examples/image.c image
echo "mutants: $caught of $all caught"
[ $caught -eq $all ]
