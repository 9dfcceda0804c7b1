; Writes the answer of compare as <, = or >.

GLOBAL 1 start
start:  LLL low         ; the second argument
        SP 12
        LLL high
        K8G 31          ; {compare}
        A 61            ; -1, 0 and 1 as <, = and >
        SP4
        L 19
        SP3
        SYS
        LLL high         ; the second argument
        SP 12
        LLL low
        K8G 31          ; {compare}
        A 61            ; -1, 0 and 1 as <, = and >
        SP4
        L 19
        SP3
        SYS
        L10             ; a line end
        SP4
        L 19
        SP3
        SYS
        L0
        SP4
        SP3
        SYS

        ALIGN 4
high:   DB 1
        DB 200
        ALIGN 4
low:    DB 1
        DB 100
