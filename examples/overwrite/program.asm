; Fills a table with the letters A to E, and writes it and the mark that is
; after it. It is to write ABCDE!, and writes ABCDEF: it has a fault, which the
; manual finds by going back from the end.
;
; ST writes B into the word at A. Both stay as they are.

        L 65            ; P!5 := the first letter, an A
        SP5
        LLL table       ; P!6 := the address of the table's next word
        SP6

fill:   LP5             ; the word := the letter
        LP6
        ST
        A1              ; on to the next word
        SP6
        LP5             ; and to the next letter
        A1
        SP5
        L 70            ; once more, if it is not after the last one
        JLE fill

        L 19            ; P!3 := 19, the call that writes a character
        SP3
        L6              ; P!5 := how many words are left: the table and the mark
        SP5
        LLL table       ; P!6 := the address of the next one
        SP6
write:  LP6             ; write the character that it holds
        RV
        SP4
        SYS
        LP6             ; on to the next word
        A1
        SP6
        LP5             ; once more, if any are left
        S1
        SP5
        JNE0 write

        L10             ; write a line feed, which is 10
        SP4
        SYS
        L0              ; call 0: stop with 0
        SP3
        SP4
        SYS

        ALIGN 4
table:  DW 0            ; five letters
        DW 0
        DW 0
        DW 0
        DW 0
mark:   DW 33           ; a !

; Try this: mend the fault. Then let the program fill the table from its end.
