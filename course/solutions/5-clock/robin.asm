; Gives the processor to the tasks 6, 7 and 8 in turn, for 2 ticks each. It is task 5,
; with the priority 1000, and sleeps while a worker runs.
;
; The packet for the clock is globals 20 to 25; its argument is how many ticks it is to
; stay there. Global 10 is the worker whose turn it is.

GLOBAL 1 start
start:  LM1             ; the link is -1,
        SG 20
        SG 21           ; and the clock is -1
        L 2             ; {slice}: how many ticks
        SG 25
        L6              ; the first turn is that of task 6
        SG 10
        LH 400          ; {front}
        LF give
        K8

next:   LLG 20          ; qpkt(packet)
        SP4
        L 11
        SP3
        SYS
        L10             ; taskwait(): it is back when it is due
        SP3
        SYS
        LG 10           ; the one whose turn it was gets its number as its priority:
        LF give         ; that is less than any other, and no two have the same
        K8
        LG 10           ; 6, 7, 8, and 6 again
        A1
        L 9
        JNE turn
        L6
        J set
turn:   XCH
set:    SG 10
        LH 400          ; {front}
        LF give
        K8
        J next

; Gives task G!10 the priority in A: changepri(G!10, A).
give:   SP5
        LG 10
        SP4
        L5
        SP3
        SYS
        RTN
