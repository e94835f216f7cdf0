#!/bin/sh
# The interpreter's programs at three heap sizes: equal output, hundreds of collections at the smallest, a sound heap at
# the end of each; and "no room", said as such, in a heap that is too small.
#   tests/c/lisp.sh LISP
set -u
cd "$(dirname "$0")/../.."
lisp=$1
said=target/c/lisp.said
printed=target/c/lisp.printed
told=target/c/lisp.told
wrong=0

complain() {
    echo "check-c: $*"
    wrong=1
}

# Runs program $1 in halves of $2 words; the exit status must be $3 and the last message must have $4.
run() {
    tools/cc.sh run "$lisp" "$2" "examples/lisp/$1.lisp" >$printed 2>$said
    status=$?
    [ $status -eq "$3" ] || complain "$1 at $2: exit status $status, not $3: $(cat $said)"
    grep -q "^lisp: $4, .* heap sound\$" $said || complain "$1 at $2: $(cat $said)"
}

same_output() {
    cmp -s $printed "examples/lisp/$1.out" || complain "$1 at $2 prints something else than $1.out"
}

many_collections() {
    count=$(sed -n 's/^lisp: fine, \([0-9]*\) collections.*/\1/p' $said)
    [ "${count:-0}" -ge 200 ] || complain "$1 at $2: only ${count:-0} collections"
    echo "check-c: $1.lisp: equal output at three sizes, ${count:-0} collections at $2 words a half"
}

# A program, its smallest heap and one that is too small.
program() {
    for size in 1048576 20000 "$2"; do
        run "$1" $size 0 fine
        same_output "$1" $size
    done
    many_collections "$1" "$2"
    run "$1" "$3" 3 "no room"
}

# What (collect) counted last stands beside the collections, and does not go by the size of the heap.
same_numbers() {
    : >$told
    for size in 1048576 20000 "$2"; do
        run "$1" $size 0 fine
        sed -n 's/^lisp: fine, .* asked for, the last with \(.*\), heap sound$/\1/p' $said >>$told
    done
    [ "$(wc -l <$told)" -eq 3 ] || complain "$1: a last line without what (collect) counted"
    [ "$(sort -u $told | wc -l)" -eq 1 ] || complain "$1: what (collect) counts goes by the size: $(paste -sd';' $told)"
    echo "check-c: $1.lisp: equal numbers at three sizes, $(head -n 1 $told) at last"
}

# One line of Lisp that must end in the fault $1, with a sound heap.
fault() {
    echo "$2" >target/c/fault.lisp
    tools/cc.sh run "$lisp" 4000 target/c/fault.lisp >$printed 2>$said
    status=$?
    [ $status -eq 1 ] || complain "$2: exit status $status, not 1"
    grep -q "^lisp: $1, .* heap sound\$" $said || complain "$2: $(cat $said)"
}

program reverse 1500 1100
program sieve 2300 1500
program strings 1800 1000
program mutual 1800 1300
program cycles 2300 1400
program tuples 1800 1200
program counts 1400 1000
same_numbers counts 1400
fault "wrong type" "(car 5)"
fault "wrong type" "(string-length '(1))"
fault "wrong type" "(car car)"
fault "unbound name" "(print nobody)"
fault "not a function" "(5 6)"
fault "wrong count" "((lambda (x) x) 1 2)"
fault "wrong count" "(collect 1)"
fault "out of range" "(* 1073741823 2)"
fault "out of range" "(vector-ref (make-vector 3 0) 3)"
fault "bad text" "(print (1 2)"
fault "bad text" "(sml->vector \"(1, 2)\")"
fault "wrong type" "(vector->sml '(1 2))"
fault "out of range" "(define v (make-vector 1 0)) (vector-set! v 0 v) (vector->sml v)"
echo "(define (down n) (if (= n 0) 0 (+ 1 (down (- n 1))))) (down 100000)" >target/c/fault.lisp
tools/cc.sh run "$lisp" 1048576 target/c/fault.lisp >$printed 2>$said
grep -q "^lisp: stack full, .* heap sound\$" $said || complain "deep recursion: $(cat $said)"
[ $wrong -ne 0 ] || echo "check-c: faults of Lisp programs are told, and leave sound heaps"
exit $wrong
