; Takes the lock, writes a small letter, sleeps for a tick, writes the capital letter,
; and gives the lock back; three times. The letter is that of the task: 6 is a.

GLOBAL 1 start
start:  LM1             ; the packet is globals 20 to 25: its link is -1
        SG 20
        L3              ; P!7 := how many times are left
        SP7
        L 102           ; P!6 := the small letter
        RV
        RV1
        A 91
        SP6
again:
        L 1
        LF ask
        K8
        LP6
        LF write
        K8
        L 1
        LF sleep
        K8
        LP6
        S 32
        LF write
        K8
        L 2
        LF ask
        K8
        L 1
        LF sleep
        K8
        LP7
        S1
        SP7
        JNE0 again
        RTN

; Sends the packet with the type in A to the lock, and waits for it.
ask:    SG 22
        L5
        SG 21
        LLG 20          ; qpkt(packet)
        SP4
        L 11
        SP3
        SYS
        L10             ; taskwait()
        SP3
        SYS
        RTN

; Sleeps for as many ticks as are in A.
sleep:  SG 25
        LM1             ; the packet goes to the clock
        SG 21
        LLG 20
        SP4
        L 11
        SP3
        SYS
        L10
        SP3
        SYS
        RTN

write:  SP4
        L 19
        SP3
        SYS
        RTN
