; Writes the answer of compare as <, = or >.

GLOBAL 1 start
start:  LLL beta         ; the second argument
        SP 12
        LLL alpha
        K8G 31          ; {compare}
        A 61            ; -1, 0 and 1 as <, = and >
        SP4
        L 19
        SP3
        SYS
        LLL alpha         ; the second argument
        SP 12
        LLL beta
        K8G 31          ; {compare}
        A 61            ; -1, 0 and 1 as <, = and >
        SP4
        L 19
        SP3
        SYS
        LLL lisp         ; the second argument
        SP 12
        LLL list
        K8G 31          ; {compare}
        A 61            ; -1, 0 and 1 as <, = and >
        SP4
        L 19
        SP3
        SYS
        L10             ; a line end
        SP4
        L 19
        SP3
        SYS
        L0
        SP4
        SP3
        SYS

        ALIGN 4
alpha:  DB 5
        DB 97
        DB 108
        DB 112
        DB 104
        DB 97
        ALIGN 4
beta:   DB 4
        DB 98
        DB 101
        DB 116
        DB 97
        ALIGN 4
list:   DB 4
        DB 108
        DB 105
        DB 115
        DB 116
        ALIGN 4
lisp:   DB 4
        DB 108
        DB 105
        DB 115
        DB 112
