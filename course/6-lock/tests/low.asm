; Takes the lock, computes, writes L, gives the lock back, and writes x.

GLOBAL 1 start
start:  LM1             ; the packet is globals 20 to 25: its link is -1
        SG 20
        L 1
        LF ask
        K8
        LH 1000
        LF busy
        K8
        L 76
        LF write
        K8
        L 2
        LF ask
        K8
        L 120
        LF write
        K8
        RTN

; Sends the packet with the type in A to the lock, and waits for it.
ask:    SG 22
        L5
        SG 21
        LLG 20          ; qpkt(packet)
        SP4
        L 11
        SP3
        SYS
        L10             ; taskwait()
        SP3
        SYS
        RTN

; Computes for a while: so many turns of two steps.
busy:   S1
        JNE0 busy
        RTN

write:  SP4
        L 19
        SP3
        SYS
        RTN
