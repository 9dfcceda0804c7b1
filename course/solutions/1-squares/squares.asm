; Writes a table: a line for each number, with the number, a blank and its square.

first:  L 2             ; {first}: the first number
        SP5             ; P!5 := it

line:   LP5             ; writes the number
        LF number
        K8
        L 32            ; writes a blank
        LF wrch
        K8
        LP5             ; writes the square
        ATB
        MUL
        LF number
        K8
        L10             ; writes a line end
        LF wrch
        K8
        LP5             ; the next number
        A1
        SP5
last:   L 11            ; {last}: on, if it is not after the last one
        JLE line

        L0              ; call 0: stop with 0
        SP3
        SP4
        SYS

; Writes the number in A: first all but its last digit, if there is more than one.
number: L10             ; B := the number
        DIV
        JEQ0 digit
        LF number
        K4
digit:  LP3             ; A := the last digit
        L10
        REM
        A 48            ; the digit 0 is 48
        LF wrch
        K4
        RTN

; Writes the character in A. Call 19 takes it from P!4.
wrch:   SP4
        L 19
        SP3
        SYS
        RTN
