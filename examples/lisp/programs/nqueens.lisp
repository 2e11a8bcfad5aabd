; In how many ways can n queens stand on a board of n by n squares so that none attacks another?

; Returns whether a queen in the next row and in this column is safe from those in the rows before. The list has the last row first.
(define (safe? column queens)
  (let loop ((queens queens) (distance 1))
    (or (null? queens)
        (and (not (= (car queens) column))
             (not (= (abs (- (car queens) column)) distance))
             (loop (cdr queens) (+ distance 1))))))

(define (count-ways size queens row)
  (if (= row size)
      1
      (fold (lambda (column ways)
              (if (safe? column queens)
                  (+ ways (count-ways size (cons column queens) (+ row 1)))
                  ways))
            0
            (iota size))))

(for-each (lambda (size)
            (display size)
            (display " queens: ")
            (display (count-ways size '() 0))
            (newline))
          '(1 2 3 4 5 6 7 8))
