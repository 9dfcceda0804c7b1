; Waits until all clients are dead, which are the tasks from 10 on, asks the accounts 5, 6 and
; 7 for their balances, writes them, and stops the machine.

GLOBAL 1 start
GLOBAL 40 write
start:  LM1             ; globals 20 to 24 are its packet for an account, and 30 to 35 that for
        SG 20           ; the clock
        SG 30
        SG 31
        L1
        SG 35
wait:   LLG 30          ; sleeps for a tick
        LF ask
        K8
        L 10            ; P!5 := the number of a task
        SP5
dead:   LP5
        A 120
        RV
        JEQ0 other
        RV4
        L 12
        JLS wait
other:  LP5
        A1
        SP5
        L 120           ; up to the highest number that there may be
        RV
        JLE dead

        L3              ; asks for the balance
        SG 22
        L5              ; P!5 := the number of an account
        SP5
next:   LP5
        A 120
        RV
        JEQ0 over
        LP5
        SG 21
        LLG 20
        LF ask
        K8
        LP5             ; writes the number, a blank, the balance and a line end
        K8G 40
        L 32
        LF put
        K8
        LG 23
        K8G 40
        L 10
        LF put
        K8
over:   LP5
        A1
        SP5
        L7
        JLE next
        L0              ; quit(0)
        SP3
        SP4
        SYS

; Sends the packet in A, and waits until it is back.
ask:    SP4             ; qpkt(packet)
        L 11
        SP3
        SYS
        L10             ; taskwait()
        SP3
        SYS
        RTN

; Writes the number in A, which is 0 or more.
write:  SP5
        L10
        DIV
        JEQ0 last
        K8G 40
last:   LP5
        L10
        REM
        A 48

; Writes the character in A.
put:    SP4
        L 19
        SP3
        SYS
        RTN
