; Copies six numbers into a work table, and writes them, a mark, a ! that is after
; the work table, and in the next line their sum. Two lines are wrong, and one is missing.

        J begin
        ALIGN 4
table:  DW 71           ; {one}
        DW 8            ; {two}
        DW 123          ; {three}
        DW 40           ; {four}
        DW 5            ; {five}
        DW 66           ; {six}
work:   DW 0
        DW 0
        DW 0
        DW 0
        DW 0
        DW 0
mark:   DW 33           ; !

begin:  L 20            ; {pause}: a pause of so many turns
pause:  S1
        JNE0 pause

        LLL table       ; P!5 := the word to be copied next,
        SP5
        LLL work        ; P!6 := the word where it goes,
        SP6
        L0              ; P!7 := how many are copied
        SP7
copy:   LP5
        RV
        LP6
        ST
        A1
        SP6
        LP5
        A1
        SP5
        LP7
        A1
        SP7
        L6              ; on, if these are not all
        JLE copy

        L0              ; writes word P!7 of the work table, and a blank
        SP7
show:   LLL work
        AP7
        RV
        LF print
        K8
        L 32
        LF wrch
        K8
        LP7
        A1
        SP7
        L6
        JLS show
        LLL mark        ; writes the mark, and a line end
        RV
        LF wrch
        K8
        L10
        LF wrch
        K8

        L6              ; writes the sum of all six, and a line end
        LF sum
        K8
        LF print
        K8
        L10
        LF wrch
        K8
        L0              ; call 0: stop with 0
        SP3
        SP4
        SYS

; A := the sum of the first k numbers of the work table.
sum:    JEQ0 none
        LLL work        ; P!4 := the last one of them
        AP3
        S1
        RV
        SP4
        LP3             ; and the sum of those before it
        LF sum
        K5
        AP4
none:   RTN

; Writes the number in A in decimal.
print:  L10             ; P!4 := the last digit
        REM
        SP4
        LP3             ; first all digits but that, if there are any
        L10
        DIV
        JEQ0 last
        LF print
        K4
last:   LP4
        A 48            ; the digit 0 is 48
        LF wrch
        K5
        RTN

; Writes the character in A.
wrch:   SP4
        L 19
        SP3
        SYS
        RTN
