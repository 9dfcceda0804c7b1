; Computes 10 factorial by a recursion, and writes it in decimal by another.
;
; A call makes a frame of four words and lets P point to it: the caller's P,
; the address to return to, the function, and its argument. So a function finds
; its argument in P!3, and in A. It leaves its answer in A.
;
; K4 calls the function at A with the argument B, in a frame at P+4. LF loads
; the address of a function; what was in A becomes the argument. K4G 1 calls
; global 1 with the argument A. RTN drops the frame and goes back.

        LF wrch         ; global 1 is the function that writes a character
        SG 1
        L10             ; A := 10 factorial
        LF fact
        K4
        LF print        ; write it
        K4
        L10             ; write a line feed, which is 10
        K4G 1
        L0              ; call 0: stop with 0
        SP3
        SP4
        SYS

; The factorial of n.
fact:   JNE0 more       ; 0 factorial is 1
        L1
        RTN
more:   S1              ; else it is n times the factorial of n - 1
        LF fact
        K4
        LP3             ; B := that factorial, A := n
        MUL
        RTN

; Writes n in decimal: first n / 10, where it is not 0, then the last digit.
print:  L10             ; B := n, A := 10
        DIV
        JEQ0 last
        LF print
        K4
last:   LP3             ; B := n, A := 10
        L10
        REM
        A 48            ; the digit 0 is 48
        K4G 1
        RTN

; Writes a character. Call 19 of the kernel takes it from P!4.
wrch:   SP4
        L 19
        SP3
        SYS
        RTN

; Try this: write 20 factorial, and find out why the answer is not the real one.
