; A till, which sells tickets until none is left. A word of the store is the number of the
; next one; they are numbered from 0 on. Global 10 is how many tickets this till has sold.
;
; A till whose task has an even number has a customer at each tick. One with an odd number
; has one all the time, and works for a while with each.
;
; It does not work with every period of the clock: a ticket may be sold twice.

GLOBAL 1 start
start:  LM1             ; the packet for the clock is globals 20 to 25: its link is -1,
        SG 20
        SG 21           ; and so is the clock
        L1
        SG 25
        L 102           ; global 11 := 1 if the number of this task is odd, else 0
        RV
        RV1
        L1
        AND
        SG 11

next:   LG 11           ; the next customer
        JNE0 works
        LF sleep
        K8
        J sells
works:  L 30            ; {work}: so many turns of two steps
work:   S1
        JGR0 work
sells:  LF sell
        K8
        JNE0 next
        RTN

; Sells a ticket: A := 1, or 0 if none is left.
sell:   L 190           ; {word}: A := the number of the next ticket
        RV
        L 10            ; {tickets}: is it after the last one?
        JGE none
        XCH             ; the next number := 1 more
        A1
        L 190           ; {word}
        ST
        LG 10           ; this till has sold 1 more
        A1
        SG 10
        L1
        RTN
none:   L0
        RTN

; Sleeps for a tick.
sleep:  LLG 20          ; qpkt(packet)
        SP4
        L 11
        SP3
        SYS
        L10             ; taskwait()
        SP3
        SYS
        RTN
