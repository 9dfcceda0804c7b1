; Quits with value(9).

GLOBAL 1 start
start:  L9
        K8G 20
        SP4             ; quit with it
        L0
        SP3
        SYS
