; Computes 1000000 times 1000000 divided by 1000003, and writes it in decimal.
;
; Call 20, muldiv, takes a, b and c from P!4, P!5 and P!6. It multiplies a by b
; in 64 bits and divides by c, so the product may be longer than a word. The
; quotient comes in A and the remainder in B. With a 1 and a 10 for b and c it
; cuts the last digit off a number.

        LW 1000000      ; muldiv(1000000, 1000000, 1000003)
        SP4
        SP5
        LW 1000003
        SP6
        L 20
        SP3
        SYS
        LF print        ; write it: B := the number, A := the function
        K8
        L10             ; write a line feed, which is 10
        SP4
        L 19
        SP3
        SYS
        L0              ; call 0: stop with 0
        SP3
        SP4
        SYS

; Writes the number in A in decimal. K8 makes the frame of the next call at P+8,
; so the words up to P!7 are this call's own.
print:  SP4             ; muldiv(n, 1, 10): A := n / 10, B := the last digit
        L1
        SP5
        L10
        SP6
        L 20
        SP3
        SYS
        XCH             ; P!7 := the last digit
        SP7
        XCH
        JEQ0 last       ; first write n / 10, if it is not 0
        LF print
        K8
last:   LP7             ; then the last digit: 0 is character 48
        A 48
        SP4
        L 19
        SP3
        SYS
        RTN

; Try this: write the number in base 2, with L2 in place of the L10 in print. That
; takes 20 frames of eight words from word 108 on, and so they run into the program
; at word 200: see how the run ends, and where.
