; Writes the least number by print.

GLOBAL 1 start
start:  LW -2147483648
        K8G 21
        L10             ; a line end
        SP4
        L 19
        SP3
        SYS
        L0
        SP4
        SP3
        SYS
