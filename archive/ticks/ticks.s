; SECTION "ticks"  GET "libhdr"     // a TRIPOS task: two packets to the clock, taskwait, delay, console by cohand
; LET start(pkt) BE
; { LET p = TABLE -1, -1, 1, 0, 0, 5
;   LET q = TABLE -1, -1, 2, 0, 0, 3
;   writef("task %n starts with packet %n*n", taskid, pkt)
;   UNLESS qpkt(p) & qpkt(q) DO abort(181)
;   FOR i = 1 TO 2 DO { LET r = taskwait()
;     writef("packet of type %n is back from %n at tick %n*n", r!2, r!1, rootnode!8) }
;   UNLESS qpkt(q+1) DO writef("qpkt refused, result2=%n*n", result2)
;   delay(4)
;   writef("tick %n*n", rootnode!8)
; }
; Compiled by hand, as a BCPL compiler for Cintcode does it.

; of the header
SET Gstart 1
SET Grootnode 9
SET Gresult2 10
SET Gtaskid 16
SET Gabort 23
SET Gqpkt 65
SET Gtaskwait 67
SET Gdelay 69
SET Gwritef 94

        ALIGN 4
        DW 0xFDDF       ; SECTION ticks
        DW 0x6369740b
        DW 0x2020736b
        DW 0x20202020
        ALIGN 4
        DW 0xDFDF       ; ENTRY start
        DW 0x6174730b
        DW 0x20207472
        DW 0x20202020
start:  LLL tabp
        SP4
        LLL tabq
        SP5
        LP3
        SP11
        LG Gtaskid
        SP10
        LLL str1
        K6G Gwritef
        LP4
        K6G Gqpkt
        JEQ0 L1
        LP5
        K6G Gqpkt
        JNE0 L2
L1:     L 181
        K6G Gabort
L2:     L1
        SP6
L3:     K7G Gtaskwait
        SP7
        L 8
        AG Grootnode
        RV
        SP14
        LP7
        RV1
        SP13
        LP7
        RV2
        SP12
        LLL str2
        K8G Gwritef
        LP6
        A1
        SP6
        L2
        JLE L3
        LP5
        A1
        K6G Gqpkt
        JNE0 L4
        LG Gresult2
        SP10
        LLL$ w3
        K6G Gwritef
L4:     L4
        K6G Gdelay
        L 8
        AG Grootnode
        RV
        SP10
        LLL$ w4
        K6G Gwritef
        RTN
        ALIGN 4
tabp:   DW -1
        DW -1
        DW 1
        DW 0
        DW 0
        DW 5
tabq:   DW -1
        DW -1
        DW 2
        DW 0
        DW 0
        DW 3
w3:     RES str3
w4:     RES str4
str1:   DS "task %n starts with packet %n*n"
str2:   DS "packet of type %n is back from %n at tick %n*n"
str3:   DS "qpkt refused, result2=%n*n"
str4:   DS "tick %n*n"
GLOBAL Gstart start
