; Writes the letters A to Z and a line feed.
;
; A kernel call takes its number from P!3 and its arguments from P!4 on. Call
; 19 writes the character in P!4 and answers it in A; call 0 stops the machine
; with the number in P!4. A load moves the old A to B.

        L 19            ; P!3 := 19, which stays there for every letter
        SP3
        L 65            ; A is the letter to be written, first 65, an A

loop:   SP4             ; P!4 := the letter
        SYS             ; write it; A is the letter again
        A1              ; the next letter
        L 90            ; A := 90, a Z, and B := the next letter
        XCH             ; A is the next letter, B is Z
        JGE loop        ; go on where Z is at least the next letter

        L10             ; write a line feed, which is 10
        SP4
        SYS

        L0              ; call 0: stop with 0
        SP3
        SP4
        SYS

; Try this: write the letters from Z to A.
