; Two servers run this program, tasks 5 and 6. Each sends the other's request back, which
; is all that it does for it. And each asks the other one itself: task 5 when a key has
; come, task 6 at each tick. It writes a small letter, makes the request ready, sends it,
; waits until it is back, and writes the capital letter.
;
; Globals 20 to 24 are its request, and 30 to 35 its packet for the keyboard or the clock.

GLOBAL 1 start
start:  LM1             ; both links are -1
        SG 20
        SG 30
        L 102           ; global 10 := the number of this task
        RV
        RV1
        SG 10
        S 7             ; 5 has the keyboard, which is -2, and 6 the clock, which is -1
        SG 31
        L1              ; the clock sends its packet back after 1 tick
        SG 35
        L 11            ; the request goes to the other one
        LG 10
        SUB
        SG 21

idle:   LLG 30          ; waits for its device,
        LF send
        K8
serve:  LF wait         ; and serves meanwhile
        K8
        LLG 30
        JEQ ask
        XCH             ; A := the request
        LF send
        K8
        J serve

ask:    L 92            ; writes its small letter: 5 is a
        LF letter
        K8
        L 30            ; makes the request ready: 30 turns of two steps
ready:  S1
        JGR0 ready
        LLG 20
        LF send
        K8
mine:   LF wait         ; waits until it is back
        K8
        LLG 20
        JEQ back
        XCH             ; the other one's request is served at once
        LF send
        K8
        J mine

back:   L 60            ; writes its capital letter
        LF letter
        K8
        J idle

send:   SP4             ; qpkt(the packet in A)
        L 11
        SP3
        SYS
        RTN
wait:   L10             ; A := taskwait()
        SP3
        SYS
        RTN
letter: AG 10           ; wrch(the number of this task and A)
        SP4
        L 19
        SP3
        SYS
        RTN
