; Task 6: adds 1 to word 190, three times, and sleeps for a tick before each. Then it
; waits until task 5 is dead, writes the word as a digit, and stops.
;
; The packet for the clock is globals 20 to 25.

GLOBAL 1 start
GLOBAL 41 sleep
start:  LM1             ; the link is -1,
        SG 20
        SG 21           ; the clock is -1,
        L1              ; and the packet is due after 1 tick
        SG 25
        L3              ; P!5 := how many are left
        SP5
more:   K8G 41
        K8G 40          ; adds 1
        LP5
        S1
        SP5
        JNE0 more

wait:   K8G 41
        L 125           ; the state of task 5: 12 is dead
        RV
        RV4
        L 12
        JNE wait
        L 190           ; wrch(the digit)
        RV
        A 48
        SP4
        L 19
        SP3
        SYS
        L0              ; quit(0)
        SP3
        SP4
        SYS

sleep:  LLG 20          ; qpkt(packet)
        SP4
        L 11
        SP3
        SYS
        L10             ; taskwait(): it is back when it is due
        SP3
        SYS
        RTN
