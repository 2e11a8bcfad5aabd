; A queue at a counter. It is a pair of its first and its last cell, and it grows by set-cdr!, even while the collector copies it.

(define (make-queue) (cons '() '()))
(define (queue-empty? queue) (null? (car queue)))

(define (enqueue! queue item)
  (let ((cell (list item)))
    (if (queue-empty? queue)
        (set-car! queue cell)
        (set-cdr! (cdr queue) cell))
    (set-cdr! queue cell)))

(define (dequeue! queue)
  (let ((item (car (car queue))))
    (set-car! queue (cdr (car queue)))
    item))

; Every second minute a customer comes, and serving one takes three minutes. So customer i, who comes at minute 2 i, is served at minute
; 3 i, and waits for i minutes.
(define (serve customers)
  (let ((queue (make-queue)) (longest 0) (waited 0) (served 0) (free-at 0) (length-now 0))
    (define (come time)
      (enqueue! queue time)
      (set! length-now (+ length-now 1)))
    (define (next time)
      (set! waited (+ waited (- time (dequeue! queue))))
      (set! served (+ served 1))
      (set! length-now (- length-now 1))
      (set! free-at (+ time 3)))
    (let loop ((time 0))
      (if (and (= (remainder time 2) 0) (< time (* 2 customers)))
          (come time))
      (if (and (<= free-at time) (not (queue-empty? queue)))
          (next time))
      (set! longest (max longest length-now))
      (if (< served customers)
          (loop (+ time 1))))
    (list 'served served 'waited waited 'longest longest 'closed-at free-at)))

(write (serve 100))
(newline)
(write (serve 1000))
(newline)

; Josephus' circle: every third of 41 leaves. The last one stood in place 31.
(define (last-in-circle people step)
  (let ((queue (make-queue)))
    (for-each (lambda (person) (enqueue! queue (+ person 1))) (iota people))
    (let loop ((left people) (count 1))
      (let ((person (dequeue! queue)))
        (cond ((= left 1) person)
              ((= count step) (loop (- left 1) 1))
              (else (enqueue! queue person) (loop left (+ count 1))))))))

(write (last-in-circle 41 3))
(newline)
