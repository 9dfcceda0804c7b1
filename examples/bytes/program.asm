; Turns the letters of a string into capitals, in place, and writes it.
;
; PBYT writes the byte in C to byte A of the bytes that begin at word B; the other
; bytes of the word stay. C is loaded from A by ATC, or from B by BTC. A small
; letter is 32 more than its capital.

        L 19            ; P!3 := 19, the call that writes a character
        SP3
        LLL text        ; P!6 := the length, byte 0 of the string
        L0
        GBYT
        SP6
        L0              ; P!5 := 0, the characters done so far
        SP5

next:   LP5             ; all done?
        LP6
        JEQ done
        LP5             ; P!5 := P!5 + 1
        A1
        SP5
        LLL text        ; A := the character
        XCH
        GBYT
        S 32            ; A := its capital
        SP4             ; P!4 := the capital
        ATC             ; C := the capital
        LP5             ; put it back: B := the string, A := P!5
        LLL text
        XCH
        PBYT
        SYS             ; write the character in P!4
        J next

done:   L10             ; write a line feed, which is 10
        SP4
        SYS
        L0              ; call 0: stop with 0
        SP3
        SP4
        SYS

        ALIGN 4
text:   DB 6            ; 6 characters: tripos
        DB 116
        DB 114
        DB 105
        DB 112
        DB 111
        DB 115

; Try this: give the string a space, and see what becomes of it. Then let the
; program change only what is a small letter, from 97 to 122.
