; Reads keys by a packet to the keyboard, and writes each by a packet to the
; output, until a line has ended.
;
; The packet for the keyboard is globals 20 to 24, the one for the output is
; globals 30 to 35.

GLOBAL 1 start
start:  LM1             ; both links are -1
        SG 20
        SG 30
        LM 2            ; the keyboard is -2
        SG 21
        LM 3            ; the output is -3
        SG 31

next:   LLG 20          ; ask(the packet for the keyboard)
        LF ask
        K6
        RV3             ; its first result is the key
        SG 35           ; which is what the other packet writes
        LLG 30          ; ask(the packet for the output)
        LF ask
        K6
        LG 35           ; again, if the key was not the line's end
        L10
        JNE next

        L0              ; quit(0)
        SP3
        SP4
        SYS

; ask(packet): sends it, waits for it, and answers it.
ask:    SP4             ; qpkt(packet)
        L 11
        SP3
        SYS
        L10             ; taskwait(): no other packet can come
        SP3
        SYS
        RTN

; A device is named by the packets that it returns, as a task is. So both packets
; can be sent again as they are.
;
; Try this: give the debugger the lines STEP 46, STEP 1 and STEP 253, with TASKS
; after each. The task waits from step 47 to step 300, when the next keys come.
