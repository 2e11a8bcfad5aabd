; Builds a long string by appending to it: each string but the last becomes garbage immediately.

(define (join numbers)
  (let loop ((text "") (numbers numbers))
    (if (null? numbers)
        text
        (loop (string-append text (if (string=? text "") "" ",") (number->string (car numbers)))
              (cdr numbers)))))

(define joined (join (iota 1000)))

(display (string-length joined))
(newline)
(display (substring joined 0 20))
(newline)
(display (substring joined 3882 3889))
(newline)

; Doubling: 7 bytes, 15 times.
(define (doubled text times)
  (if (= times 0) text (doubled (string-append text text) (- times 1))))

(display (string-length (doubled "gcflip!" 15)))
(newline)
