; The prime numbers below 100, by the sieve of Eratosthenes.

(define (without-multiples-of prime numbers)
  (filter (lambda (number) (not (= (remainder number prime) 0))) numbers))

(define (sieve numbers)
  (if (null? numbers)
      '()
      (cons (car numbers) (sieve (without-multiples-of (car numbers) (cdr numbers))))))

(write (sieve (cddr (iota 100))))
(newline)
