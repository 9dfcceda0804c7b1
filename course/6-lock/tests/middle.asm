; Sleeps for a tick, computes for a long time, and writes M. It needs no lock.

GLOBAL 1 start
start:  LM1             ; the packet is globals 20 to 25: its link is -1
        SG 20
        L 1
        LF sleep
        K8
        LH 10000
        LF busy
        K8
        L 77
        LF write
        K8
        RTN

; Sleeps for as many ticks as are in A.
sleep:  SG 25
        LM1             ; the packet goes to the clock
        SG 21
        LLG 20
        SP4
        L 11
        SP3
        SYS
        L10
        SP3
        SYS
        RTN

; Computes for a while: so many turns of two steps.
busy:   S1
        JNE0 busy
        RTN

write:  SP4
        L 19
        SP3
        SYS
        RTN
