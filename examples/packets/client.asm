; Sends a packet to task 6 and waits until it is back, three times. Each time it
; writes the first result as a letter, and makes it the next argument.
;
; The packet is globals 20 to 25: link, destination, type, two results, argument.

GLOBAL 1 start
start:  LM1             ; the link is -1: the packet is on no queue
        SG 20
        L6              ; it goes to task 6
        SG 21
        L7              ; its type, of which the two tasks make nothing
        SG 22
        L 64            ; its argument
        SG 25

next:   LLG 20          ; qpkt(packet)
        SP4
        L 11
        SP3
        SYS
        L10             ; taskwait(): A := the packet, which is back
        SP3
        SYS
        RV3             ; the next argument := its first result
        SG 25
        SP4             ; wrch(it)
        L 19
        SP3
        SYS
        LG 25           ; again, if it was not the letter C
        L 67
        JNE next

        L0              ; quit(0)
        SP3
        SP4
        SYS

; The destination is set once. While the packet is on its way, word 1 is the
; sender: when it is back, that is 6, and so the next qpkt goes to task 6 again.
;
; Try this: give task 6 the priority 50 in the session, and look at the trace.
