; Writes 64 and the length of a string as a letter, twice, and quits with a third length.

GLOBAL 1 start
start:  LLL five
        K8G 30          ; {length}
        A 64
        SP4
        L 19
        SP3
        SYS
        LLL none
        K8G 30          ; {length}
        A 64
        SP4
        L 19
        SP3
        SYS
        L10             ; a line end
        SP4
        L 19
        SP3
        SYS
        LF vector       ; the third one is after the program, of 200 characters
        K8
        K8G 30          ; {length}
        SP4             ; quit with it
        L0
        SP3
        SYS

; A := a vector of 51 words with a string of 200 characters.
vector: L 50
        SP4
        L1
        SP3
        SYS
        SP5
        L 200
        LP5
        ST
        LP5
        RTN

        ALIGN 4
five:   DB 5
        DB 115
        DB 101
        DB 118
        DB 101
        DB 110
        ALIGN 4
none:   DB 0
