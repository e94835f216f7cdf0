; The same beside a list that stays: 10,000 pairs are live in each collection.
(define (count n list) (while (< 0 n) (set! list (cons n list)) (set! n (- n 1))) list)
(define kept (count 10000 '()))
(define (fib n) (if (< n 2) n (+ (fib (- n 1)) (fib (- n 2)))))
(print (fib 20))
