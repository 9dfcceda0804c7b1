; A client: adds its own number, and writes that and the answer.

GLOBAL 1 start
start:  LM1             ; the packet is globals 20 to 25: its link is -1,
        SG 20
        L6              ; and it goes to task 6
        SG 21
        L 102           ; P!7 := the number of the task that runs
        RV
        RV1
        SP7
        SP 12
        L1
        LF ask
        K8
        LP7
        LF print
        K8
        L 32
        LF wrch
        K8
        LG 23
        LF print
        K8
        L 10
        LF wrch
        K8
        RTN

; Sends the packet, with the type in A and the argument in P!4, and waits for it.
ask:    SG 22
        LP4
        SG 25
        LLG 20          ; qpkt(packet)
        SP4
        L 11
        SP3
        SYS
        L10             ; taskwait()
        SP3
        SYS
        RTN

; Writes the number in A in decimal; before one below 0 is a -.
print:  JGE0 digits
        L 45
        LF wrch
        K4
        LP3
        NEG
        SP3
digits: LP3
        L10
        DIV
        JEQ0 last
        LF print
        K4
last:   LP3
        L10
        REM
        A 48
        LF wrch
        K4
        RTN

; Writes the character in A.
wrch:   SP4
        L 19
        SP3
        SYS
        RTN
