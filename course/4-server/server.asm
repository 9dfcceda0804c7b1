; Keeps a sum, and serves requests:
;   type 1: adds the argument to the sum. The first result is the new sum
;   type 2: the first result is the sum
;   any other: the first result is -1
; The second result is 0, and for a type that it does not know a code.

GLOBAL 1 start
start:  L 0             ; {begin}: the sum, global 10, with which the server begins
        SG 10

next:   L10             ; taskwait(): P!5 := the next packet
        SP3
        SYS
        SP5
                        ; here the packet is to be treated and sent back
        J next
