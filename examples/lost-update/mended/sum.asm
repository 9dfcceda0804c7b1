; Task 7: adds 1 to word 190 for each packet, and sends it back. No other task writes
; this word.

GLOBAL 1 start
start:  L10             ; taskwait(): A := the next packet
        SP3
        SYS
        SP4             ; it is the argument of qpkt below
        L 190
        RV
        A1
        L 190
        ST
        L 11            ; qpkt(packet): it goes to its sender
        SP3
        SYS
        J start
