; Writes three lines to its console. In a ring they are typed at the other
; machine, whose shell does them.

        L 19            ; P!3 := 19, the call that writes a character
        SP3
        LLL lines       ; P!6 := byte 0 of the string, its length
        L0
        GBYT
        SP6
        L0              ; P!5 := 0, the characters written so far
        SP5

next:   LP5             ; all written?
        LP6
        JEQ done
        LP5             ; P!5 := P!5 + 1
        A1
        SP5
        LLL lines       ; A := the string, B := P!5
        XCH             ; A := P!5, B := the string
        GBYT            ; A := that character
        SP4
        SYS
        J next

done:   L0              ; call 0: stop with 0
        SP3
        SP4
        SYS

        ALIGN 4
lines:  DB 20           ; 20 characters
        DB 69           ; EX
        DB 88
        DB 10
        DB 84           ; TYPE note
        DB 89
        DB 80
        DB 69
        DB 32
        DB 110
        DB 111
        DB 116
        DB 101
        DB 10
        DB 70           ; FINISH
        DB 73
        DB 78
        DB 73
        DB 83
        DB 72
        DB 10
