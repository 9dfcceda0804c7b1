; Task 6: waits until task 5 has asked for a signal, and gives it at the next tick.
;
; The packet for the clock is globals 20 to 25, and global 10 is that of task 5.

GLOBAL 1 start
start:  LM1             ; the link is -1,
        SG 20
        SG 21           ; the clock is -1,
        L1              ; and the packet is due after 1 tick
        SG 25
next:   L10             ; taskwait(): is it asked?
        SP3
        SYS
        SG 10
        LLG 20          ; qpkt(the packet for the clock)
        SP4
        L 11
        SP3
        SYS
        L10             ; taskwait(): it is back when it is due
        SP3
        SYS
        LG 10           ; qpkt(the packet of task 5): the signal
        SP4
        L 11
        SP3
        SYS
        J next
