; LET start() = VALOF { LET ch, n = ?, 0
;   selectinput(findinput("**")); sys(11, '?'); newline()
;   { ch := rdch(); IF ch='.' | ch=endstreamch BREAK; IF ch='q' DO stop(20, 5); wrch(capitalch(ch)); n := n+1 } REPEAT
;   unrdch(); writef("*n%n %c*n", n, rdch()); RESULTIS n }
; Compiled by hand, as a BCPL compiler for Cintcode does it.

; of the header
SET Gstart 1
SET Gstop 2
SET Gsys 3
SET Grdch 38
SET Gunrdch 40
SET Gwrch 41
SET Gfindinput 48
SET Gselectinput 56
SET Gnewline 84
SET Gcapitalch 92
SET Gwritef 94

        ALIGN 4
        DW 0xFDDF       ; SECTION ask
        DW 0x6b73610b
        DW 0x20202020
        DW 0x20202020
        ALIGN 4
        DW 0xDFDF       ; ENTRY start
        DW 0x6174730b
        DW 0x20207472
        DW 0x20202020
start:  L0
        SP4
        LLL str1
        K5G Gfindinput
        K5G Gselectinput
        L '?'
        SP9
        L 11
        K5G Gsys
        K5G Gnewline
L1:     K5G Grdch
        SP3
        L '.'
        JEQ L9
        LP3
        LM1
        JEQ L9
        LP3
        L 'q'
        JNE L2
        L5
        SP9
        L 20
        K5G Gstop
L2:     LP3
        K5G Gcapitalch
        K5G Gwrch
        LP4
        A1
        SP4
        J L1
L9:     K5G Gunrdch
        K9G Grdch
        SP10
        LP4
        SP9
        LLL str2
        K5G Gwritef
        LP4
        RTN
str1:   DS "**"
str2:   DS "*n%n %c*n"
GLOBAL Gstart start
