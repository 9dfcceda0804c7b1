; Reads the pipe b, and writes its lines to the console, each with its number and a blank
; before it. It closes the pipe after the last byte, and returns.
;
; Global 10 is the handle, global 11 the number of the line, and global 12 is 1 at the
; beginning of a line. The buffer is the globals from 100 on.

GLOBAL 1 start
GLOBAL 30 ask
GLOBAL 31 request
GLOBAL 32 print
GLOBAL 33 wrch

        ALIGN 4
in:     DB 1
        DB 98           ; {b}

start:  LM1             ; the requests are globals 20 to 27, and the packet for
        SG 20           ; the clock is globals 40 to 45: both links are -1,
        SG 40
        SG 41           ; and the clock is -1
        L4
        SG 21
        L1              ; the clock keeps its packet for one tick
        SG 45
        LLL in          ; opens the pipe b to read
        SG 25
        L0
        SG 26
        L 20
        K8G 31
        LG 23
        SG 10
        L 1             ; {first}: the number of the first line
        SG 11
        L1
        SG 12

read:   LG 10           ; reads up to 100 bytes
        SG 25
        LLG 100
        SG 26
        L 100
        SG 27
        L 21
        K8G 31
        LG 23           ; how many there were: 0 at the end
        JEQ0 end
        SP6
        L0              ; P!5 := the number of the next byte
        SP5
byte:   LG 12           ; before a line come its number and a blank
        JEQ0 inside
        LG 11
        K8G 32
        L 32
        K8G 33
        LG 11
        A1
        SG 11
        L0
        SG 12
inside: LLG 100
        LP5
        GBYT
        SP7
        K8G 33
        LP7
        L10
        JNE next
        L1
        SG 12
next:   LP5
        A1
        SP5
        LP6
        JLS byte
        J read

end:    LG 10
        SG 25
        L 23
        K8G 31
        RTN

; Sends a request of the type in A; while it is refused with 70, it waits for a tick,
; and asks again.
request: SG 22
again:  LLG 20
        K8G 30
        LG 24
        JEQ0 done
        LLG 40
        K8G 30
        J again
done:   RTN

; Writes the number in A in decimal.
print:  L10
        DIV
        JEQ0 digit
        K4G 32
digit:  LP3
        L10
        REM
        A 48
        K4G 33
        RTN

; Writes the character in A.
wrch:   SP4
        L 19
        SP3
        SYS
        RTN

; Sends the packet in A, and waits for it.
ask:    SP4             ; qpkt(packet)
        L 11
        SP3
        SYS
        L10             ; taskwait(): no other packet can come
        SP3
        SYS
        RTN
