; Serves packets: the first result is the argument and 1 more.

GLOBAL 1 start
start:  L10             ; taskwait(): A := the next packet
        SP3
        SYS
        SP4             ; it is the argument of qpkt below
        RV5             ; A := its argument
        A1
        LP4             ; B := the argument and 1 more, A := the packet
        ST3             ; its first result := B
        L 11            ; qpkt(packet): it goes to its sender
        SP3
        SYS
        J start
