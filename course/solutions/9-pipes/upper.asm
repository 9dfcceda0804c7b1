; Reads the pipe a, and writes what it reads into the pipe b, with capitals in the place
; of small letters. It closes both pipes after the last byte, and returns.
;
; Globals 10 and 11 are the handles. The buffer is the globals from 100 on.

GLOBAL 1 start
GLOBAL 30 ask
GLOBAL 31 request
GLOBAL 32 upper
GLOBAL 33 move

        ALIGN 4
in:     DB 1
        DB 97           ; {a}
        ALIGN 4
out:    DB 1
        DB 98           ; {b}

start:  LM1             ; the requests are globals 20 to 27, and the packet for
        SG 20           ; the clock is globals 40 to 45: both links are -1,
        SG 40
        SG 41           ; and the clock is -1
        L4
        SG 21
        L1              ; the clock keeps its packet for one tick
        SG 45
        LLL in          ; opens the pipe a to read
        SG 25
        L0
        SG 26
        L 20
        K8G 31
        LG 23
        SG 10
        LLL out         ; and the pipe b to write
        SG 25
        L1
        SG 26
        L 20
        K8G 31
        LG 23
        SG 11

read:   LG 10           ; reads up to 100 bytes
        SG 25
        LLG 100
        SG 26
        L 100
        SG 27
        L 21
        K8G 31
        LG 23           ; how many there were: 0 at the end
        JEQ0 end
        SP5             ; P!5 := how many
        K8G 32
        LLG 100         ; P!6 := the word where the rest begins
        SP6
write:  LG 11           ; writes the rest
        SG 25
        LP6
        SG 26
        LP5
        SG 27
        L 22
        K8G 31
        LP5             ; less may have been taken: then the rest is moved to
        LG 23           ; the front
        SUB
        JEQ0 read
        SP5
        LP5
        SP 12
        LG 23
        K8G 33
        J write

end:    LG 10           ; closes both
        SG 25
        L 23
        K8G 31
        LG 11
        SG 25
        L 23
        K8G 31
        RTN

; Sends a request of the type in A; while it is refused with 70 or 73, it waits for a
; tick, and asks again.
request: SG 22
again:  LLG 20
        K8G 30
        LG 24
        JEQ0 done
        LLG 40
        K8G 30
        J again
done:   RTN

; The A bytes of the buffer get capitals in the place of small letters.
upper:  L0
        SP4
letter: LLG 100         ; P!5 := byte P!4
        LP4
        GBYT
        SP5
        L 97
        JLS next        ; it is less than a
        LP5
        L 122
        JGR next        ; or greater than z
        LP5
        S 32
        ATC
        LLG 100
        LP4
        PBYT
next:   LP4
        A1
        SP4
        LP3
        JLS letter
        RTN

; Moves P!4 bytes of the buffer, which begin at byte A, to its front.
move:   L0
        SP5
one:    LLG 100         ; C := byte P!5 + P!3
        LP5
        AP3
        GBYT
        ATC
        LLG 100
        LP5
        PBYT
        LP5
        A1
        SP5
        LP4
        JLS one
        RTN

; Sends the packet in A, and waits for it.
ask:    SP4             ; qpkt(packet)
        L 11
        SP3
        SYS
        L10             ; taskwait(): no other packet can come
        SP3
        SYS
        RTN
