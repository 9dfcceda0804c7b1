; The office, which is task 5. It has the number of the next ticket, global 10, and no
; other task reads or writes it. Each packet asks for a ticket: the first result is its
; number, or -1 if none is left.

GLOBAL 1 start
start:  L10             ; taskwait(): P!4 := the next packet
        SP3
        SYS
        SP4
        LG 10
        L 10            ; {tickets}: is it after the last one?
        JGE none
        LG 10           ; the packet gets the number
        LP4
        ST3
        LG 10           ; and the next one is 1 more
        A1
        SG 10
        J answer
none:   LM1
        LP4
        ST3
answer: L 11            ; qpkt(packet): it goes to its sender
        SP3
        SYS
        J start
