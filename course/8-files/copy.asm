; Copies the file from0 into the file to0, and writes how many bytes and how many line
; ends it has: two numbers, with a blank between them, and a line end. The shell starts
; it, and gets the code of the request that was refused, or 0, as its return code.
;
; The packet for the file handler, task 4, is globals 20 to 27. Global 10 is the packet
; of the shell.

GLOBAL 1 start
GLOBAL 30 ask

        ALIGN 4
from:   DB 5
        DB 102
        DB 114
        DB 111
        DB 109
        DB 48           ; {48 + digit}
        ALIGN 4
to:     DB 3
        DB 116
        DB 111
        DB 48           ; {48 + digit}

start:  SG 10
        LM1             ; the link is -1,
        SG 20
        L4              ; and it goes to task 4
        SG 21
        LLL from        ; opens the file to read
        SG 25
        L10
        K8G 30
                        ; here it is to be copied
        L0              ; the return code

end:    LG 10           ; the first result of the shell's packet := the return code
        ST3
        SP4             ; qpkt(it)
        L 11
        SP3
        SYS
        RTN

; Sends the packet with the type in A, and waits for it. A := 0, or the code with which
; the request was refused.
ask:    SG 22
        LLG 20          ; qpkt(packet)
        SP4
        L 11
        SP3
        SYS
        L10             ; taskwait(): no other packet can come
        SP3
        SYS
        LG 24
        RTN
