; Writes the answer of compare as <, = or >.

GLOBAL 1 start
start:  LLL tasks         ; the second argument
        SP 12
        LLL task
        K8G 31          ; {compare}
        A 61            ; -1, 0 and 1 as <, = and >
        SP4
        L 19
        SP3
        SYS
        LLL task         ; the second argument
        SP 12
        LLL tasks
        K8G 31          ; {compare}
        A 61            ; -1, 0 and 1 as <, = and >
        SP4
        L 19
        SP3
        SYS
        LLL task         ; the second argument
        SP 12
        LLL none
        K8G 31          ; {compare}
        A 61            ; -1, 0 and 1 as <, = and >
        SP4
        L 19
        SP3
        SYS
        L10             ; a line end
        SP4
        L 19
        SP3
        SYS
        L0
        SP4
        SP3
        SYS

        ALIGN 4
task:   DB 4
        DB 116
        DB 97
        DB 115
        DB 107
        ALIGN 4
tasks:  DB 5
        DB 116
        DB 97
        DB 115
        DB 107
        DB 115
        ALIGN 4
none:   DB 0
