; A client: adds 5, 7 and 30, asks for the sum, and writes the first result of each answer.

GLOBAL 1 start
start:  LM1             ; the packet is globals 20 to 25: its link is -1,
        SG 20
        L6              ; and it goes to task 6
        SG 21
        L 5
        SP 12
        L 1
        LF ask
        K8
        LG 23
        LF print
        K8
        L 10
        LF wrch
        K8
        L 7
        SP 12
        L 1
        LF ask
        K8
        LG 23
        LF print
        K8
        L 10
        LF wrch
        K8
        L 30
        SP 12
        L 1
        LF ask
        K8
        LG 23
        LF print
        K8
        L 10
        LF wrch
        K8
        L 9             ; an argument that is not to be added
        SP 12
        L 2
        LF ask
        K8
        LG 23
        LF print
        K8
        L 10
        LF wrch
        K8
        RTN

; Sends the packet, with the type in A and the argument in P!4, and waits for it.
ask:    SG 22
        LP4
        SG 25
        LLG 20          ; qpkt(packet)
        SP4
        L 11
        SP3
        SYS
        L10             ; taskwait()
        SP3
        SYS
        RTN

; Writes the number in A in decimal; before one below 0 is a -.
print:  JGE0 digits
        L 45
        LF wrch
        K4
        LP3
        NEG
        SP3
digits: LP3
        L10
        DIV
        JEQ0 last
        LF print
        K4
last:   LP3
        L10
        REM
        A 48
        LF wrch
        K4
        RTN

; Writes the character in A.
wrch:   SP4
        L 19
        SP3
        SYS
        RTN
