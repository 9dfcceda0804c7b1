; Writes three lines into the pipe a.

GLOBAL 1 start
GLOBAL 30 ask
GLOBAL 31 request

        ALIGN 4
out:    DB 1
        DB 97           ; {a}
        ALIGN 4
text:   DB 111
        DB 110
        DB 101
        DB 32
        DB 108
        DB 105
        DB 110
        DB 101
        DB 10
        DB 97
        DB 110
        DB 100
        DB 32
        DB 111
        DB 110
        DB 101
        DB 32
        DB 109
        DB 111
        DB 114
        DB 101
        DB 32
        DB 108
        DB 105
        DB 110
        DB 101
        DB 10
        DB 122
        DB 10

start:  LM1             ; the requests are globals 20 to 27, and the packet for
        SG 20           ; the clock is globals 40 to 45: both links are -1,
        SG 40
        SG 41           ; and the clock is -1
        L4
        SG 21
        L1              ; the clock keeps its packet for one tick
        SG 45
        LLL out         ; opens the pipe to write
        SG 25
        L1
        SG 26
        L 20
        K8G 31
        LG 23
        SG 25
        L3              ; waits until the others have opened their ends: a pipe
        SG 45           ; of which no end is open is lost
        LLG 40
        K8G 30
        L1
        SG 45
        L 1             ; P!5 := how many times are left
        SP5
next:   L0              ; copies the text into the globals from 100 on
        SP6
copy:   LLL text
        LP6
        GBYT
        ATC
        LLG 100
        LP6
        PBYT
        LP6
        A1
        SP6
        L 29
        JLS copy
        L 29            ; P!7 := how many bytes are left of it
        SP7
some:   LLG 100
        SG 26
        LP7
        SG 27
        L 22
        K8G 31
        LP7             ; less may have been taken: then the rest is moved to
        LG 23           ; the front
        SUB
        SP7
        JEQ0 done
        L0
        SP6
move:   LP6
        AG 23
        SP8
        LLG 100
        LP8
        GBYT
        ATC
        LLG 100
        LP6
        PBYT
        LP6
        A1
        SP6
        LP7
        JLS move
        J some
done:
        LP5
        S1
        SP5
        JNE0$ next2
        L 23            ; closes the pipe
        K8G 31
        RTN
next2:  RES next

; Sends a request of the type in A, and again at each tick as long as it is refused.
request: SG 22
again:  LLG 20
        K8G 30
        LG 24
        JEQ0 over
        LLG 40
        K8G 30
        J again
over:   RTN

; Sends the packet in A, and waits for it.
ask:    SP4             ; qpkt(packet)
        L 11
        SP3
        SYS
        L10             ; taskwait(): no other packet can come
        SP3
        SYS
        RTN
