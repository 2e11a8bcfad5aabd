; Tables whose keys are objects, not equal copies of them; keys that a table does not keep alive; functions that wait for an object's death.

(define (show text value) (display text) (display value) (newline))

; A circle has no last pair, so a walk has to know which pairs it has seen.
(define (count-pairs items seen)
  (cond ((not (pair? items)) 0)
        ((hashtable-ref seen items #f) 0)
        (else (hashtable-set! seen items #t)
              (+ 1 (count-pairs (car items) seen) (count-pairs (cdr items) seen)))))

(define circle (list 1 2 3))
(set-cdr! (cddr circle) circle)
(show "pairs of two circles that are one: " (count-pairs (list circle circle) (make-eq-hashtable)))

; 500 keys that look alike. The collector moves all of them, again and again.
(define ages (make-eq-hashtable))
(define people (map (lambda (age) (list 'person)) (iota 500)))
(fold (lambda (person age) (hashtable-set! ages person age) (+ age 1)) 0 people)
(define (waste times) (cond ((> times 0) (iota 100) (waste (- times 1)))))
(waste 200)
(show "ages of all: " (fold (lambda (person sum) (+ sum (hashtable-ref ages person -1))) 0 people))
(show "an equal list that is no key: " (hashtable-ref ages (list 'person) 'unknown))
(hashtable-delete! ages (car people))
(show "people left: " (hashtable-size ages))

; A cache whose entries go when nobody else refers to their keys.
(define cache (make-weak-eq-hashtable))
(define kept (list 'kept))
(hashtable-set! cache kept "still here")
(for-each (lambda (n) (hashtable-set! cache (list n) n)) (iota 100))
(define (wait-until is-over?) (cond ((not (is-over?)) (waste 1) (wait-until is-over?))))
(wait-until (lambda () (= (hashtable-size cache) 1)))
(show "what the cache has of it: " (hashtable-ref cache kept #f))

; A function that closes what nobody can use any more. It must not refer to the object itself.
(define closed 0)
(define (close) (set! closed (+ closed 1)))
(for-each (lambda (n) (finalize! (list 'file n) close)) (iota 10))
(wait-until (lambda () (run-finalizers) (= closed 10)))
(show "files that were closed: " closed)
