; Reads the pipe a, and writes what it reads into the pipe b, with capitals in the place
; of small letters. It closes both pipes after the last byte, and returns.

GLOBAL 1 start
GLOBAL 30 ask

        ALIGN 4
in:     DB 1
        DB 97           ; {a}
        ALIGN 4
out:    DB 1
        DB 98           ; {b}

start:  LM1             ; the requests are globals 20 to 27, and the packet for
        SG 20           ; the clock is globals 40 to 45: both links are -1,
        SG 40
        SG 41           ; and the clock is -1
        L4
        SG 21
        L1              ; the clock keeps its packet for one tick
        SG 45
        LLL in          ; opens the pipe a to read
        SG 25
        L0
        SG 26
        L 20
        SG 22
        LLG 20
        K8G 30
        RTN

; Sends the packet in A, and waits for it.
ask:    SP4             ; qpkt(packet)
        L 11
        SP3
        SYS
        L10             ; taskwait(): no other packet can come
        SP3
        SYS
        RTN
