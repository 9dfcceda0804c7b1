; Writes some numbers below 0 by print.

GLOBAL 1 start
start:  LW -1
        K8G 21
        L10             ; a line end
        SP4
        L 19
        SP3
        SYS
        LW -10
        K8G 21
        L10             ; a line end
        SP4
        L 19
        SP3
        SYS
        LW -1234567
        K8G 21
        L10             ; a line end
        SP4
        L 19
        SP3
        SYS
        L0
        SP4
        SP3
        SYS
