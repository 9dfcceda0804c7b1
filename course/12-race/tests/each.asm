; Waits until all tills are dead, which are the tasks from 6 on but this one, writes for each
; how many tickets it has sold, and stops the machine.

GLOBAL 1 start
start:  LM1             ; the packet for the clock is globals 20 to 25
        SG 20
        SG 21
        L1
        SG 25
wait:   LLG 20          ; sleeps for a tick
        SP4
        L 11
        SP3
        SYS
        L10
        SP3
        SYS
        L0              ; P!7 := 1 if all are dead
        SP7
again:  L6              ; P!5 := the number of a task
        SP5
next:   LP5
        A 120
        RV
        JEQ0 over       ; there is none
        SP6             ; P!6 := its block
        L 102
        RV
        LP6
        JEQ over        ; it is this one
        LP6
        RV4
        L 12
        JLS wait        ; it is not dead
        LP7             ; writes its number, a blank, and its global 10
        JEQ0 over
        LP5
        LF write
        K8
        L 32
        LF put
        K8
        LP6
        A 8
        RV
        A 10
        RV
        LF write
        K8
        L 10
        LF put
        K8
over:   LP5
        A1
        SP5
        L 20
        JLE next

        LP7             ; once more, if none was written yet
        JNE0 done
        L1
        SP7
        J again
done:   L0              ; quit(0)
        SP3
        SP4
        SYS

; Writes the number in A, from 0 to 99.
write:  SP5
        L10
        DIV
        JEQ0 ones
        A 48
        SP4
        L 19
        SP3
        SYS
ones:   LP5
        L10
        REM
        A 48
        SP4
        L 19
        SP3
        SYS
        RTN

; Writes the character in A.
put:    SP4
        L 19
        SP3
        SYS
        RTN
