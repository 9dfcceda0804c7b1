; Writes some numbers by print.

GLOBAL 1 start
start:  LW 0
        K8G 21
        L10             ; a line end
        SP4
        L 19
        SP3
        SYS
        LW 7
        K8G 21
        L10             ; a line end
        SP4
        L 19
        SP3
        SYS
        LW 10
        K8G 21
        L10             ; a line end
        SP4
        L 19
        SP3
        SYS
        LW 65536
        K8G 21
        L10             ; a line end
        SP4
        L 19
        SP3
        SYS
        LW 2147483647
        K8G 21
        L10             ; a line end
        SP4
        L 19
        SP3
        SYS
        L0
        SP4
        SP3
        SYS
