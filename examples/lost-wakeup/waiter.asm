; Task 5: asks task 6 for a signal, works for a while, waits until the signal has come,
; and writes a letter; four times, from a to d. The signal is flag 1 of this task.
;
; The packet by which it asks is globals 30 to 34.

GLOBAL 1 start
start:  LM1             ; its link is -1
        SG 30
        L 97            ; P!7 := the letter
        SP7
        L0              ; P!8 := how long it works
        SP8
next:   L6              ; qpkt(packet): it asks task 6 for a signal
        SG 31
        LLG 30
        SP4
        L 11
        SP3
        SYS
        LP8             ; works, each time for 40 steps more
        A 20
        SP8
work:   S1
        JGR0 work

test:   L1              ; testflags(1): has the signal come?
        SP4
        L7
        SP3
        SYS
        JNE0 come
        L5              ; no: hold(5), until task 6 releases this task
        SP4
        L8
        SP3
        SYS
        J test

come:   LP7             ; wrch(the letter)
        SP4
        L 19
        SP3
        SYS
        LP7             ; again, if it was not the letter d
        A1
        SP7
        L 101
        JNE next
        L0              ; quit(0)
        SP3
        SP4
        SYS
