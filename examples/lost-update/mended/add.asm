; Asks task 7 to add 1 to word 190, and waits until it has done so.
;
; The packet is globals 30 to 34.

GLOBAL 40 add
add:    LM1             ; the link is -1,
        SG 30
        L7              ; and it goes to task 7
        SG 31
        LLG 30          ; qpkt(packet)
        SP4
        L 11
        SP3
        SYS
        L10             ; taskwait(): no other packet can come
        SP3
        SYS
        RTN
