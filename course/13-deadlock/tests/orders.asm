; Orders an account to move money to the next one; after the last account comes account 5.
; The tasks 11, 16, 21 and so on do so with account 6, and 12, 17, 22 and so on with account
; 7: three times, and they sleep for a tick before each. The tasks 10, 15 and so on do so with
; account 5, four times, and work before each.

GLOBAL 1 start
start:  LM1             ; globals 20 to 26 are its packet for the account, and 30 to 35 that
        SG 20           ; for the clock
        SG 30
        SG 31
        L1
        SG 35
        L2              ; it is to move
        SG 22
        L 5             ; {amount}: so much,
        SG 25
        L 102           ; global 10 := the account: 5, and the number of this task modulo 5
        RV
        RV1
        L 5
        REM
        A 5
        SG 10
        L 5             ; to the next one, if there is one, and else to account 5
        SG 26
        LG 10
        L 7
        JEQ ready
        LG 10
        A 121
        RV
        JEQ0 ready
        LG 10
        A1
        SG 26
ready:  L3              ; P!5 := how many are left
        SP5
        LG 10
        L 5
        JNE next
        L4
        SP5

next:   LG 10           ; works, or sleeps
        L 5
        JEQ works
        LLG 30
        LF ask
        K8
        J order
works:  L 60
work:   S1
        JGR0 work
order:  LG 10
        SG 21
        LLG 20
        LF ask
        K8
        LP5
        S1
        SP5
        JNE0 next
        RTN

; Sends the packet in A, and waits until it is back.
ask:    SP4             ; qpkt(packet)
        L 11
        SP3
        SYS
        L10             ; taskwait()
        SP3
        SYS
        RTN
