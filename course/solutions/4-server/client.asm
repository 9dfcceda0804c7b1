; Adds its own number to the sum of the server, task 6, three times. After each time it
; writes a letter for the answer: A for 1, B for 2, and so on.
;
; The packet is globals 20 to 25: link, destination, type, two results, argument.

GLOBAL 1 start
start:  L 102           ; global 25, the argument := the number of the task
        RV
        RV1
        SG 25
        LM1             ; the link is -1: the packet is on no queue
        SG 20
        L6              ; it goes to task 6
        SG 21
        L1              ; its type says that the server is to add
        SG 22
        L3              ; P!7 := how many times are left
        SP7

again:  LLG 20          ; qpkt(packet)
        SP4
        L 11
        SP3
        SYS
        L10             ; taskwait(): the packet is back
        SP3
        SYS
        LG 23           ; wrch(64 and its first result)
        A 64
        SP4
        L 19
        SP3
        SYS
        LP7
        S1
        SP7
        JNE0 again
        RTN
