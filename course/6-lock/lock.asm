; A lock, which is task 5. A request of type 1 takes it, and one of type 2 gives it back.
;
; It does not work yet: it says yes to all, also to two at the same time.

GLOBAL 1 start
start:  L10             ; taskwait(): P!5 := the next packet
        SP3
        SYS
        SP5
        L0              ; both results, its words 3 and 4, := 0
        LP5
        ST3
        A1
        ST3
        LP5             ; qpkt(packet): it goes to its sender
        SP4
        L 11
        SP3
        SYS
        J start
