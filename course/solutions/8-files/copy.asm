; Copies the file from0 into the file to0, and writes how many bytes and how many line
; ends it has: two numbers, with a blank between them, and a line end. The shell starts
; it, and gets the code of the request that was refused, or 0, as its return code.
;
; The packet for the file handler, task 4, is globals 20 to 27. Global 10 is the packet
; of the shell, 11 and 12 are the streams, or 0, 13 and 14 the numbers of bytes and of
; line ends. The buffer is the globals from 100 on, with 400 bytes.

GLOBAL 1 start
GLOBAL 30 ask
GLOBAL 31 close
GLOBAL 32 count
GLOBAL 33 number
GLOBAL 34 wrch

        ALIGN 4
from:   DB 5
        DB 102
        DB 114
        DB 111
        DB 109
        DB 48           ; {48 + digit}
        ALIGN 4
to:     DB 3
        DB 116
        DB 111
        DB 48           ; {48 + digit}

start:  SG 10
        LM1             ; the link is -1,
        SG 20
        L4              ; and it goes to task 4
        SG 21
        L0              ; no stream is open, and nothing is counted
        SG 11
        SG 12
        SG 13
        SG 14
        LLL from        ; opens the one to read
        SG 25
        L10
        K8G 30
        JNE0 end
        LG 23
        SG 11
        LLL to          ; and the other one to write
        SG 25
        L 11
        K8G 30
        JNE0 end
        LG 23
        SG 12

read:   LG 11           ; reads up to 400 bytes
        SG 25
        LLG 100
        SG 26
        LH 400
        SG 27
        L 12
        K8G 30
        JNE0 end
        LG 23           ; the answer is how many there were: 0 at the end
        JEQ0 told
        SG 27
        AG 13
        SG 13
        K8G 32          ; counts the line ends among them
        LG 12           ; appends them
        SG 25
        L 13
        K8G 30
        JNE0 end
        J read

told:   LG 13           ; writes both numbers
        K8G 33
        L 32
        K8G 34
        LG 14
        K8G 33
        L10
        K8G 34
        L0              ; the return code

end:    SP5             ; P!5 := the return code
        LG 11           ; closes what is open
        K8G 31
        LG 12
        K8G 31
        LP5             ; the first result of the shell's packet := the return code
        LG 10
        ST3
        SP4             ; qpkt(it)
        L 11
        SP3
        SYS
        RTN

; Closes the stream in A, if it is not 0.
close:  JEQ0 closed
        SG 25
        L 14
        K8G 30
closed: RTN

; Adds to global 14 how many of the G!27 bytes of the buffer are line ends.
count:  L0
        SP5
byte:   LLG 100
        LP5
        GBYT
        L10
        JNE other
        LG 14
        A1
        SG 14
other:  LP5
        A1
        SP5
        LG 27
        JLS byte
        RTN

; Writes the number in A in decimal.
number: L10
        DIV
        JEQ0 digit
        K4G 33
digit:  LP3
        L10
        REM
        A 48
        K4G 34
        RTN

; Writes the character in A.
wrch:   SP4
        L 19
        SP3
        SYS
        RTN

; Sends the packet with the type in A, and waits for it. A := 0, or the code with which
; the request was refused.
ask:    SG 22
        LLG 20          ; qpkt(packet)
        SP4
        L 11
        SP3
        SYS
        L10             ; taskwait(): no other packet can come
        SP3
        SYS
        LG 24
        RTN
