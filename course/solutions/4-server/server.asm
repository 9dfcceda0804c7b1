; Keeps a sum, and serves requests:
;   type 1: adds the argument to the sum. The first result is the new sum
;   type 2: the first result is the sum
;   any other: the first result is -1
; The second result is 0, and for a type that it does not know a code.

GLOBAL 1 start
start:  L 0             ; {begin}: the sum, global 10, with which the server begins
        SG 10

next:   L10             ; taskwait(): P!5 := the next packet
        SP3
        SYS
        SP5
        RV2             ; its type
        S1
        JEQ0 add
        S1
        JEQ0 ask
        L 31            ; {code}: none that is known: the second result := the code,
        LP5             ; which is word 4,
        A1
        ST3
        LM1             ; and the first one -1
        J reply

add:    LP5             ; the sum := the sum and the argument
        RV5
        AG 10
        SG 10
ask:    L0              ; the second result := 0
        LP5
        A1
        ST3
        LG 10           ; the first one is the sum
reply:  LP5             ; the first result := A
        ST3
        LP5             ; qpkt(packet): it goes to its sender
        SP4
        L 11
        SP3
        SYS
        J next
