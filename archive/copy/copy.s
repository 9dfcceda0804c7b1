; SECTION "copy"  GET "libhdr"
; LET start() = VALOF
; { LET sysout, in, out, n = output(), findinput("from"), 0, 0
;   IF in=0 DO { writef("can't open from, result2=%n*n", result2); stop(20, result2) }
;   out := findoutput("to")
;   IF out=0 DO { writef("can't open to, result2=%n*n", result2); selectinput(in); endread(); stop(20, result2) }
;   selectinput(in); selectoutput(out)
;   { LET ch = rdch(); IF ch=endstreamch BREAK; wrch(capitalch(ch)); n := n+1 } REPEAT
;   endread(); endwrite(); selectoutput(sysout)
;   writef("%n characters copied*n", n)
;   RESULTIS 0 }
; Compiled by hand, as a BCPL compiler for Cintcode does it.

; of the header
SET Gstart 1
SET Gstop 2
SET Gresult2 10
SET Grdch 38
SET Gwrch 41
SET Gfindinput 48
SET Gfindoutput 49
SET Gselectinput 56
SET Gselectoutput 57
SET Goutput 59
SET Gendread 60
SET Gendwrite 61
SET Gcapitalch 92
SET Gwritef 94

        ALIGN 4
        DW 0xFDDF       ; SECTION copy
        DW 0x706f630b
        DW 0x20202079
        DW 0x20202020
        ALIGN 4
        DW 0xDFDF       ; ENTRY start
        DW 0x6174730b
        DW 0x20207472
        DW 0x20202020
start:  K3G Goutput
        SP3
        LLL strfrom
        K4G Gfindinput
        SP4
        L0
        SP5
        L0
        SP6
        LP4
        JNE0 L1
        LG Gresult2
        SP11
        LLL str1
        K7G Gwritef
        LG Gresult2
        SP11
        L 20
        K7G Gstop
L1:     LLL strto
        K7G Gfindoutput
        SP5
        JNE0 L2
        LG Gresult2
        SP11
        LLL str2
        K7G Gwritef
        LP4
        K7G Gselectinput
        K7G Gendread
        LG Gresult2
        SP11
        L 20
        K7G Gstop
L2:     LP4
        K7G Gselectinput
        LP5
        K7G Gselectoutput
L3:     K7G Grdch
        SP7
        LM1
        JEQ L4
        LP7
        K8G Gcapitalch
        K8G Gwrch
        LP6
        A1
        SP6
        J L3
L4:     K7G Gendread
        K7G Gendwrite
        LP3
        K7G Gselectoutput
        LP6
        SP11
        LLL str3
        K7G Gwritef
        L0
        RTN
strfrom: DS "from"
strto:  DS "to"
str1:   DS "can't open from, result2=%n*n"
str2:   DS "can't open to, result2=%n*n"
str3:   DS "%n characters copied*n"
GLOBAL Gstart start
