; Writes a letter again and again, and waits for the clock in between. Three
; tasks run this one program, each with a letter and a delay of its own:
;
;   task 5  A  1 tick
;   task 6  B  2 ticks
;   task 7  C  3 ticks
;
; The packet for the clock is globals 20 to 25; the delay is its argument.

GLOBAL 1 start
start:  L 102           ; the running task's block
        RV
        RV1             ; its word 1: the number of the task
        SG 10
        A 60            ; 5 is the letter A
        SG 11
        LG 10           ; 5 waits for 1 tick
        S4
        SG 25
        LM1             ; the link is -1,
        SG 20
        SG 21           ; and the clock is -1

next:   LLG 20          ; qpkt(packet)
        SP4
        L 11
        SP3
        SYS
        L10             ; taskwait(): it is back when it is due
        SP3
        SYS
        LG 11           ; wrch(letter)
        SP4
        L 19
        SP3
        SYS
        J next

; At tick 6 all three are due. The clock returns the packets as they were sent,
; that of task 7 first, since it waits for the longest time. But the tasks run by
; their priorities, and so task 5 writes first.
;
; Try this: change the priorities in the session, and then the period.
