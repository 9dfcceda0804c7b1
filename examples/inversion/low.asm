; Task 5: has the lock from the beginning. It computes with it, writes L, and gives the lock
; to the task that has asked for it, by sending its packet back.

GLOBAL 1 start
start:  L 200           ; computes: 200 turns of two steps
busy:   S1
        JGR0 busy
        L 76            ; wrch(L)
        SP4
        L 19
        SP3
        SYS
        L10             ; taskwait(): the packet of the one that asks
        SP3
        SYS
        SP4             ; qpkt(it): now that one has the lock
        L 11
        SP3
        SYS
        L5              ; changepri(5, 100): its own priority again, if it had another
        SP4
        L 100
        SP5
        L5
        SP3
        SYS
        RTN
