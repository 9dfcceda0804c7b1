; Keeps 1, 2, 3 and 4 in its words while value(6) is called, and quits with 4321.

GLOBAL 1 start
start:  L1
        SP4
        L2
        SP5
        L3
        SP6
        L4
        SP7
        L6
        K8G 20
        LP7             ; A := P!7, P!6, P!5 and P!4 as four digits
        L10
        MUL
        AP6
        L10
        MUL
        AP5
        L10
        MUL
        AP4
        SP4             ; quit with it
        L0
        SP3
        SYS
