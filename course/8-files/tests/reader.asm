; Opens the file to0 to read, and leaves it open.

GLOBAL 1 start
start:  LM1             ; the packet is globals 20 to 27: its link is -1,
        SG 20
        L4              ; and it goes to task 4
        SG 21
        LLL to
        SG 25
        L10
        SG 22
        LLG 20
        SP4
        L 11
        SP3
        SYS
        L10
        SP3
        SYS
        RTN

        ALIGN 4
to:     DB 3
        DB 116
        DB 111
        DB 48           ; {48 + digit}
