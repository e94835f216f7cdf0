; Numbers only: all that is allocated are the bindings and the lists of arguments, and almost nothing is live.
(define (fib n) (if (< n 2) n (+ (fib (- n 1)) (fib (- n 2)))))
(print (fib 20))
