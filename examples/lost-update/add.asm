; Adds 1 to word 190.

GLOBAL 40 add
add:    L 190           ; A := word 190
        RV
        A1              ; A := 1 more
        L 190           ; B := that, A := 190
        ST              ; word 190 := B
        RTN

; Try this: change the period of the session, from 20 to 520 steps.
