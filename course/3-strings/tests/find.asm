; Writes 64 and the answer of find as a letter.

GLOBAL 1 start
start:  L 112
        SP 12
        LLL packet
        K8G 33          ; {find}
        A 64
        SP4
        L 19
        SP3
        SYS
        L 99
        SP 12
        LLL packet
        K8G 33          ; {find}
        A 64
        SP4
        L 19
        SP3
        SYS
        L 122
        SP 12
        LLL packet
        K8G 33          ; {find}
        A 64
        SP4
        L 19
        SP3
        SYS
        L 112
        SP 12
        LLL none
        K8G 33          ; {find}
        A 64
        SP4
        L 19
        SP3
        SYS
        L10             ; a line end
        SP4
        L 19
        SP3
        SYS
        L0
        SP4
        SP3
        SYS

        ALIGN 4
packet: DB 6
        DB 112
        DB 97
        DB 99
        DB 107
        DB 101
        DB 116
        ALIGN 4
none:   DB 0
