; Writes a dot at each tick of the clock, six times. Others go on meanwhile.
;
; The packet for the clock is globals 20 to 25.

GLOBAL 1 start
start:  LM1             ; the link is -1, and the clock is -1
        SG 20
        SG 21
        L1              ; it comes back at the next tick
        SG 25
        L6              ; global 30 counts
        SG 30

next:   LLG 20          ; qpkt(packet)
        SP4
        L 11
        SP3
        SYS
        L10             ; taskwait()
        SP3
        SYS
        L 46            ; wrch(a dot)
        SP4
        L 19
        SP3
        SYS
        LG 30
        S1
        SG 30
        JNE0 next
        RTN

; RUN starts it without a packet, so it gives none back. When it has returned, the
; shell takes it off at the shell's next turn, its module too.
