; Fills the disc: appends to the file full until no byte has room.

GLOBAL 1 start
start:  LM1             ; the packet is globals 20 to 27: its link is -1,
        SG 20
        L4              ; and it goes to task 4
        SG 21
        LLL name        ; opens the file to write
        SG 25
        L 11
        LF ask
        K8
        LG 23           ; the stream
        SG 25
        LLG 0           ; what is appended are words that are here anyhow
        SG 26
        LH 4096         ; 4,096 bytes each time, until they are refused,
        LF append
        K8
        LH 512          ; and then a sector
        LF append
        K8
        L 14            ; closes the file
        LF ask
        K8
        RTN

; Appends A bytes until they are refused.
append: SG 27
more:   L 13
        LF ask
        K8
        LG 24
        JEQ0 more
        RTN

; Sends the packet with the type in A, and waits for it.
ask:    SG 22
        LLG 20
        SP4
        L 11
        SP3
        SYS
        L10
        SP3
        SYS
        RTN

        ALIGN 4
name:   DB 4
        DB 102
        DB 117
        DB 108
        DB 108
