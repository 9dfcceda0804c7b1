; Quits with value(2).

GLOBAL 1 start
start:  L2
        K8G 20
        SP4             ; quit with it
        L0
        SP3
        SYS
