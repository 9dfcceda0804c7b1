; Another server: its sum begins at 4, and it adds 1 for each request of type 1 whose
; argument is the number of the client. Every other request is answered by 42.

GLOBAL 1 start
start:  L4
        SG 10
next:   L10             ; taskwait(): P!7 := the packet
        SP3
        SYS
        SP7
        RV1             ; A := who sent it
        LP7
        RV5             ; B := that, A := the argument
        JNE wrong
        LP7
        RV2
        L1
        JNE wrong
        LG 10
        A1
        SG 10
        J reply
wrong:  L 42
reply:  LP7             ; its first result := A
        ST3
        LP7             ; qpkt(packet)
        SP4
        L 11
        SP3
        SYS
        J next
