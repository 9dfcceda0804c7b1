; value(k) is global 20, and print(x) global 21. Both get their argument in A and
; in P!3, and leave their frame by RTN; value leaves its answer in A.

GLOBAL 20 value
GLOBAL 21 print

; The number k of the series:
;   value(0) is 0
;   value(1) is 1
;   value(k) is 1 times value(k - 1) and 1 times value(k - 2)
value:  JEQ0 zero
        S1
        JEQ0 one
        LF value        ; P!4 := value(k - 1), in a frame after P!4
        K5
        SP4
        LP3             ; A := value(k - 2)
        S2
        LF value
        K5
        L 1             ; {b}: times b
        MUL
        SP5
        LP4             ; A := value(k - 1) times a
        L 1             ; {a}
        MUL
        AP5
        RTN
zero:   L 0             ; {zero}
        RTN
one:    L 1             ; {one}
        RTN

; Writes x in decimal. Numbers below 0 are written by a function that works below
; 0 for all: the least number has no counterpart above.
print:  JLS0 minus
        NEG
        LF digits
        K4
        RTN
minus:  L 45            ; -
        LF wrch
        K4
        LP3
        LF digits
        K4
        RTN

; Writes -x for an x of at most 0: first all but the last digit, then that.
digits: L10             ; B := x, A := 10
        DIV
        JEQ0 last
        LF digits
        K4
last:   LP3
        L10
        REM
        NEG
        A 48            ; the digit 0 is 48
        LF wrch
        K4
        RTN

; Writes the character in A. Call 19 takes it from P!4.
wrch:   SP4
        L 19
        SP3
        SYS
        RTN
