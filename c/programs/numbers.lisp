; Recursion and tail calls.
(define fact (lambda (n) (if (= n 0) 1 (* n (fact (- n 1))))))
(fact 10)
(define fib (lambda (n) (if (< n 2) n (+ (fib (- n 1)) (fib (- n 2))))))
(fib 15)
(define gcd (lambda (a b) (if (= b 0) a (gcd b (- a (* b (/ a b)))))))
(gcd 1071 462)
(define add-up (lambda (n sum) (if (= n 0) sum (add-up (- n 1) (+ sum n)))))
(add-up 2000 0)
; A tail call takes no cells: three stand on the stack after one and after a thousand.
(define down (lambda (n) (if (= n 0) (cells) (down (- n 1)))))
(down 1)
(down 1000)
(- 3 5)
-7
(< 1 2)
(< 2 1)
