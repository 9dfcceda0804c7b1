; Reads the pipe b, and writes what it reads to the console.

GLOBAL 1 start
start:  LM1             ; the requests are globals 20 to 27, and the packet for
        SG 20           ; the clock is globals 40 to 45: both links are -1,
        SG 40
        SG 41           ; and the clock is -1
        L4
        SG 21
        L1              ; the clock keeps its packet for one tick
        SG 45
        LLL in          ; opens the pipe to read
        SG 25
        L0
        SG 26
        L 20
        LF request
        K8
        LG 23
        SG 25
read:   LLG 100         ; reads up to 100 bytes
        SG 26
        L 100
        SG 27
        L 21
        LF request
        K8
        LG 23           ; how many there were: 0 at the end
        JEQ0 end
        SP6
        L0
        SP5
byte:   LLG 100
        LP5
        GBYT
        SP4
        L 19
        SP3
        SYS
        LP5
        A1
        SP5
        LP6
        JLS byte
        J read
end:    RTN

; Sends a request of the type in A, and again at each tick as long as it is refused.
request: SG 22
again:  LLG 20
        LF ask
        K8
        LG 24
        JEQ0 done
        LLG 40
        LF ask
        K8
        J again
done:   RTN

; Sends the packet in A, and waits for it.
ask:    SP4             ; qpkt(packet)
        L 11
        SP3
        SYS
        L10             ; taskwait(): no other packet can come
        SP3
        SYS
        RTN

        ALIGN 4
in:     DB 1
        DB 98           ; {b}
