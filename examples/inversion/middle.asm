; Task 6: sleeps for a tick, computes for a long time, and writes M. It needs no lock.
;
; The packet for the clock is globals 20 to 25.

GLOBAL 1 start
start:  LM1             ; the link is -1,
        SG 20
        SG 21           ; the clock is -1,
        L1              ; and the packet is due after 1 tick
        SG 25
        LLG 20          ; qpkt(packet)
        SP4
        L 11
        SP3
        SYS
        L10             ; taskwait(): it is back when it is due
        SP3
        SYS
        LH 500          ; computes: 500 turns of two steps
busy:   S1
        JGR0 busy
        L 77            ; wrch(M)
        SP4
        L 19
        SP3
        SYS
        RTN
