; Makes 640 lists of the numbers 0 to 99, and keeps the last 3 of them. Each number takes 36 words: 4 for its pair, and 32 for the scopes of the
; calls that make it. So the run takes more than 2304000 words, over 100 times a heap of 20000 words.

(define (first-items count items)
  (if (or (= count 0) (null? items))
      '()
      (cons (car items) (first-items (- count 1) (cdr items)))))

(define (churn rounds kept)
  (if (= rounds 0)
      kept
      (churn (- rounds 1) (first-items 3 (cons (iota 100) kept)))))

(define (sum items) (fold + 0 items))

(display (map sum (churn 640 '())))
(newline)
