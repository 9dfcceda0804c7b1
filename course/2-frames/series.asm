; value(k) is global 20, and print(x) global 21. Both get their argument in A and
; in P!3, and leave their frame by RTN; value leaves its answer in A.

GLOBAL 20 value
GLOBAL 21 print

; The number k of the series:
;   value(0) is 0
;   value(1) is 1
;   value(k) is 1 times value(k - 1) and 1 times value(k - 2)
value:  RTN

; Writes x in decimal.
print:  A 48            ; this is right for one digit: 0 is 48
        SP4
        L 19
        SP3
        SYS
        RTN
