; Writes the answer of compare as <, = or >.

GLOBAL 1 start
start:  LLL two         ; the second argument
        SP 12
        LLL one
        K8G 31          ; {compare}
        A 61            ; -1, 0 and 1 as <, = and >
        SP4
        L 19
        SP3
        SYS
        LLL empty         ; the second argument
        SP 12
        LLL none
        K8G 31          ; {compare}
        A 61            ; -1, 0 and 1 as <, = and >
        SP4
        L 19
        SP3
        SYS
        L10             ; a line end
        SP4
        L 19
        SP3
        SYS
        L0
        SP4
        SP3
        SYS

        ALIGN 4
one:    DB 6
        DB 107
        DB 101
        DB 114
        DB 110
        DB 101
        DB 108
        ALIGN 4
two:    DB 6
        DB 107
        DB 101
        DB 114
        DB 110
        DB 101
        DB 108
        ALIGN 4
none:   DB 0
        ALIGN 4
empty:  DB 0
