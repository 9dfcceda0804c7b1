; Writes a string.
;
; A string is kept as BCPL keeps it: a byte with the number of its characters,
; and then the characters, four bytes to a word. GBYT loads byte A of the bytes
; that begin at word B, so byte 0 is the length, and byte 1 the first character.
; There is no directive for a string: DB gives one byte. bin/asm makes such lines
; of DS "text".

        L 19            ; P!3 := 19, the call that writes a character
        SP3
        LLL text        ; P!6 := byte 0 of the string, its length
        L0              ; a load moves A to B, so B is the string, and A is 0
        GBYT
        SP6
        L0              ; P!5 := 0, the characters written so far
        SP5

next:   LP5             ; all written?
        LP6
        JEQ done
        LP5             ; P!5 := P!5 + 1
        A1
        SP5
        LLL text        ; A := the string, B := P!5
        XCH             ; A := P!5, B := the string
        GBYT            ; A := that character
        SP4
        SYS
        J next

done:   L0              ; call 0: stop with 0
        SP3
        SP4
        SYS

        ALIGN 4         ; LLL gives a word address, so the string begins at a word
text:   DB 13           ; 13 characters
        DB 72           ; Hello, world
        DB 101
        DB 108
        DB 108
        DB 111
        DB 44
        DB 32
        DB 119
        DB 111
        DB 114
        DB 108
        DB 100
        DB 10           ; a line feed

; Try this: write the string backwards, from its last character to its first.
