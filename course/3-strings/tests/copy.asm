; Copies two strings, and writes what came of it.

GLOBAL 1 start
start:  LLL long
        LF copied       ; a string of 9 characters
        K8
        LLL none        ; and one of none
        LF copied
        K8
        L0
        SP4
        SP3
        SYS

; Copies the string in A into the vector, which is full of dots before, and writes its
; length, a blank and its characters, and below them the six bytes after them.
copied: SP5             ; P!5 := the string
        L1
        SP6
dots:   L 46            ; fills bytes 0 to 39 of the vector with dots
        ATC
        LLL vector
        LP6
        S1
        PBYT
        LP6
        A1
        SP6
        L 40
        JLE dots
        LLL vector      ; copy(the string, the vector)
        SP 12
        LP5
        K8G 32          ; {copy}
        LLL vector      ; it answers the vector
        JEQ right
        L 99            ; or the run ends with 99
        SP4
        L0
        SP3
        SYS
right:  LLL vector      ; P!6 := the length
        L0
        GBYT
        SP6
        A 48            ; writes it as a digit
        LF write
        K8
        L 32
        LF write
        K8
        L0
        SP5
next:   LP5             ; writes the characters
        LP6
        JEQ after
        LP5
        A1
        SP5
        LLL vector
        LP5
        GBYT
        LF write
        K8
        J next
after: L10
        LF write
        K8
        LP6             ; P!6 := the last one of the six bytes
        A 6
        SP6
more:   LP5
        A1
        SP5
        LLL vector
        LP5
        GBYT
        LF write
        K8
        LP5
        LP6
        JNE more
        L10
        LF write
        K8
        RTN

write:  SP4
        L 19
        SP3
        SYS
        RTN

        ALIGN 4
long:   DB 9
        DB 97
        DB 108
        DB 103
        DB 111
        DB 114
        DB 105
        DB 116
        DB 104
        DB 109
        ALIGN 4
none:   DB 0
        ALIGN 4
vector: DW 0
        DW 0
        DW 0
        DW 0
        DW 0
        DW 0
        DW 0
        DW 0
        DW 0
        DW 0
        DW 0
        DW 0
        DW 0
        DW 0
        DW 0
        DW 0
        DW 0
        DW 0
        DW 0
        DW 0
