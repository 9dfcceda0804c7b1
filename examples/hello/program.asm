; Writes the letter A to the console, and quits.
;
; SYS makes a call. It takes the call's number from P!3 and its argument from P!4,
; that is, from words 3 and 4 of the stack frame. Call 19 writes a character, and
; call 0 quits.
        L 19            ; 60 13    A := 19
        SP 3            ; a0 03    P!3 := 19, the call that writes a character
        L 65            ; 60 41    A := 65, the letter A
        SP 4            ; a0 04    P!4 := 65
        SYS             ; 91       writes A
        L 0             ; 60 00    A := 0
        SP 3            ; a0 03    P!3 := 0, the call that quits
        SP 4            ; a0 04    P!4 := 0, the code to quit with
        SYS             ; 91       stops the machine

; Try this: write a second letter before the program quits.
