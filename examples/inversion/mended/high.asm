; Task 7: sleeps for a tick, asks task 5 for the lock, and writes H when it has it.
;
; While it waits for the lock, task 5 has a priority that is 1 above its own.
;
; The packet for the clock is globals 20 to 25, the one for task 5 is globals 30 to 34.

GLOBAL 1 start
start:  LM1             ; both links are -1,
        SG 20
        SG 30
        SG 21           ; the clock is -1,
        L1              ; and the packet is due after 1 tick
        SG 25
        L5              ; the other one goes to task 5
        SG 31
        LLG 20          ; sleeps
        LF send
        K8
        LF wait
        K8

        LLG 30          ; asks for the lock
        LF send
        K8
        L5              ; changepri(5, 1 more than the priority of this task)
        SP4
        L 102
        RV
        RV2
        A1
        SP5
        L5
        SP3
        SYS
        LF wait         ; and waits until it has it
        K8
        L 72            ; wrch(H)
        SP4
        L 19
        SP3
        SYS
        RTN

send:   SP4             ; qpkt(the packet in A)
        L 11
        SP3
        SYS
        RTN
wait:   L10             ; taskwait(): no other packet can come
        SP3
        SYS
        RTN
