; What a collection counts of what is live: words, objects and addresses met. The numbers are the same in every heap
; that has room. A report is what came and went since the report before; the first only begins.
(define (differences a b) (if (null? a) '() (cons (- (car a) (car b)) (differences (cdr a) (cdr b)))))
(define (tower n x) (if (= n 0) x (tower (- n 1) (cons x x))))
(define (churn n) (while (< 0 n) (list n n n n) (set! n (- n 1))))
(define kept '())
(define last (list 0 0 0))
(define reports 0)
(define (report)
  (let ((now (collect)))
    (if (< 0 reports) (print (differences now last)))
    (set! reports (+ reports 1))
    (set! last now)))
(report)
; ten pairs, each met once, of four words: a header, the type, car and cdr
(set! kept (list 1 2 3 4 5 6 7 8 9 10))
(report)
; one pair more, in which the list is met twice
(set! kept (cons kept kept))
(report)
; nothing of it is live any more
(set! kept '())
(report)
; a tower of 2 to the 10 leaves is ten pairs too, but all of them but the first are met twice
(set! kept (tower 10 1))
(report)
(set! kept '())
(report)
; a vector of three numbers; then it holds itself, which is one address and no word more
(set! kept (make-vector 3 7))
(report)
(vector-set! kept 0 kept)
(report)
; a string of eight words, raw ones, in its place; then a built-in function: a code word, with no object behind it
(set! kept "twenty-four bytes in all")
(report)
(set! kept car)
(report)
; garbage counts for nothing
(churn 3000)
(report)
