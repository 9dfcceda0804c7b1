; Reads the pipe b, and writes its lines to the console, each with its number and a blank
; before it. It closes the pipe after the last byte, and returns.

GLOBAL 1 start
GLOBAL 30 ask

        ALIGN 4
in:     DB 1
        DB 98           ; {b}

start:  LM1             ; the requests are globals 20 to 27, and the packet for
        SG 20           ; the clock is globals 40 to 45: both links are -1,
        SG 40
        SG 41           ; and the clock is -1
        L4
        SG 21
        L1              ; the clock keeps its packet for one tick
        SG 45
        RTN

; Sends the packet in A, and waits for it.
ask:    SP4             ; qpkt(packet)
        L 11
        SP3
        SYS
        L10             ; taskwait(): no other packet can come
        SP3
        SYS
        RTN
