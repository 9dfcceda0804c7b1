; Gives the processor to the tasks 6, 7 and 8 in turn, for 2 ticks each. It is task 5,
; with the priority 1000, and sleeps while a worker runs.
;
; The packet for the clock is globals 20 to 25; its argument is how many ticks it is to
; stay there.

GLOBAL 1 start
start:  LM1             ; the link is -1,
        SG 20
        SG 21           ; and the clock is -1
        L 2             ; {slice}: how many ticks
        SG 25
                        ; here task 6 is to get the priority 400

next:   LLG 20          ; qpkt(packet)
        SP4
        L 11
        SP3
        SYS
        L10             ; taskwait(): it is back when it is due
        SP3
        SYS
                        ; here it is the turn of the next one
        J next
