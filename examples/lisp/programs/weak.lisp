; Pairs that do not keep their first element alive.

(define (show text value) (display text) (display value) (newline))
(define (waste times) (cond ((> times 0) (iota 100) (waste (- times 1)))))
(define (wait-until is-over?) (cond ((not (is-over?)) (waste 1) (wait-until is-over?))))
(define (died? pair) (not (weak-pair/car? pair)))

; An object that nobody else refers to dies.
(define lonely (weak-cons (list 'lonely) 'rest))
(wait-until (lambda () (died? lonely)))
(show "what is left of the lonely one: " (list (weak-car lonely) (weak-cdr lonely)))

; One to which a variable refers stays, and stays the same object, while the collector moves it.
(define kept (list 'kept))
(define known (weak-cons kept '()))
(wait-until (let ((other (weak-cons (list 'other) '()))) (lambda () (died? other))))
(show "what is left of the kept one: " (weak-car known))
(show "it is the same object: " (eq? (weak-car known) kept))

; When the variable lets go of it, it dies too.
(set! kept '())
(wait-until (lambda () (died? known)))
(show "when nobody keeps it: " (weak-car known))

; An object that is fetched lives on, whether a collection is open or not. Each try wastes another amount between making the object and fetching
; it, so the fetches fall at different points of a collection. The collector has to find what was fetched, and with it the list inside.
(define (fresh n) (weak-cons (list n (list n n)) '()))
(define (is-whole? object n) (equal? object (list n (list n n))))
(define died 0)
(define found 0)
(define wrong 0)
(define (wait-for-a-flip) (let ((other (weak-cons (list 'other) '()))) (wait-until (lambda () (died? other)))))
(define (try n)
  (let ((pair (fresh n)))
    (waste (+ n n))
    (let ((object (weak-car pair)))
      (cond ((not object) (set! died (+ died 1)))
            (else (set! found (+ found 1))
                  (wait-for-a-flip)
                  (cond ((not (and (eq? (weak-car pair) object) (is-whole? object n))) (set! wrong (+ wrong 1)))))))))
(for-each try (iota 60))
(show "60 tries: " (+ died found))
(show "some were found, some had died: " (list (> found 0) (> died 0)))
(show "found ones that changed or died: " wrong)

; 300 weak pairs, which all die with what they referred to.
(define pairs (map (lambda (n) (weak-cons (list n) n)) (iota 300)))
(wait-until (lambda () (= (length (filter died? pairs)) 300)))
(show "sum of their second elements: " (fold (lambda (pair sum) (+ sum (weak-cdr pair))) 0 pairs))
