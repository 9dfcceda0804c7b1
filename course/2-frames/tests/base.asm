; Quits with 1000 times value(0) and value(1).

GLOBAL 1 start
start:  L0
        K8G 20
        LH 1000
        MUL
        SP5
        L1
        K8G 20
        AP5
        SP4             ; quit with it
        L0
        SP3
        SYS
