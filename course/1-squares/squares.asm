; Writes a table: a line for each number, with the number, a blank and its square.

first:  L 2             ; {first}: the first number
        SP5             ; P!5 := it

line:   LP5             ; writes the number
        LF number
        K8
        L 32            ; writes a blank
        LF wrch
        K8
                        ; here the square is to be written, a line end, and
                        ; what belongs to a loop

        L0              ; call 0: stop with 0
        SP3
        SP4
        SYS

; Writes the number in A, from 0 to 9.
number: A 48            ; the digit 0 is 48
        LF wrch
        K4
        RTN

; Writes the character in A. Call 19 takes it from P!4.
wrch:   SP4
        L 19
        SP3
        SYS
        RTN
