; Writes Hello, and gives the shell its packet back.
;
; A program that is started by its name begins with the packet of the shell. The
; shell prompts again when the packet is back.

GLOBAL 1 start
start:  SP6             ; P!6 := the packet
        L1
        SP5             ; P!5 := 1, the place of the first character
next:   LLL text        ; wrch(byte P!5 of the text)
        LP5
        GBYT
        SP4
        L 19
        SP3
        SYS
        LP5             ; P!5 := P!5 + 1
        A1
        SP5
        L6              ; again, if that is at most 6
        JLE next

        LP6             ; qpkt(packet): its word 1 holds 1 already
        SP4
        L 11
        SP3
        SYS
        RTN

        ALIGN 4
text:   DB 6            ; Hello and a line end
        DB 72
        DB 101
        DB 108
        DB 108
        DB 111
        DB 10

; Try this: leave the qpkt out. The shell waits for ever.
