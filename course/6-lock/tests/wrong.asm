; Gives the lock back without having it, and quits with the second result; with 1 if
; the first one is not -1.

GLOBAL 1 start
start:  LM1             ; the packet is globals 20 to 25: its link is -1
        SG 20
        L 2
        LF ask
        K8
        LG 23
        A1
        JNE0 other
        LG 24
        J quit
other:  L1
quit:   SP4
        L0
        SP3
        SYS

; Sends the packet with the type in A to the lock, and waits for it.
ask:    SG 22
        L5
        SG 21
        LLG 20          ; qpkt(packet)
        SP4
        L 11
        SP3
        SYS
        L10             ; taskwait()
        SP3
        SYS
        RTN
