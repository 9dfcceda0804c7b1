; SECTION "squares"  GET "libhdr"
; LET sq(args) = VALOF { LET a = args!0            // initco(sq, 100, 7): adds a to each square
;   LET n = cowait(0)
;   { n := cowait(n*n + a) } REPEAT }
; LET double(n) = n+n
; LET start() = VALOF
; { LET c, d = initco(sq, 100, 7), createco(double, 50)
;   LET lev = level()
;   IF c=0 | d=0 DO { writes("no room*n"); RESULTIS 20 }
;   FOR i = -2 TO 3 DO writef("%i3: sq %i4 double %i4 hex %x4 oct %o3*n",
;                             i, callco(c, i), callco(d, i), i, i)
;   writef("muldiv(1000000,1000000,7) = %n rem %n*n", muldiv(1000000, 1000000, 7), result2)
;   writef("deleteco: %n, colist is %s*n", deleteco(c), colist=d -> "d", "not d")
;   longjump(lev, lab)
;   writes("never*n")
; lab: writef("%c%s*n", 'o', "ver") ; deleteco(d) ; RESULTIS 0 }
; Compiled by hand, as a BCPL compiler for Cintcode does it.

; of the header
SET Gstart 1
SET Gmuldiv 5
SET Gcolist 8
SET Gresult2 10
SET Glevel 21
SET Glongjump 22
SET Gcreateco 31
SET Gdeleteco 32
SET Gcallco 33
SET Gcowait 34
SET Ginitco 36
SET Gwrites 90
SET Gwritef 94

        ALIGN 4
        DW 0xFDDF       ; SECTION squares
        DW 0x7571730b
        DW 0x73657261
        DW 0x20202020
        ALIGN 4
        DW 0xDFDF       ; ENTRY sq
        DW 0x2071730b
        DW 0x20202020
        DW 0x20202020
sq:     RV
        SP4
        L0
        K5G Gcowait
        SP5
L1:     LP5
        LP5
        MUL
        AP4
        K6G Gcowait
        SP5
        J L1
        ALIGN 4
        DW 0xDFDF       ; ENTRY double
        DW 0x756f640b
        DW 0x20656c62
        DW 0x20202020
double: LP3
        AP3
        RTN
        ALIGN 4
        DW 0xDFDF       ; ENTRY start
        DW 0x6174730b
        DW 0x20207472
        DW 0x20202020
start:  L7
        SP8
        L 100
        SP7
        LF sq
        K3G Ginitco
        SP3
        L 50
        SP8
        LF double
        K4G Gcreateco
        SP4
        K5G Glevel
        SP5
        LP3
        JEQ0 L2
        LP4
        JNE0 L3
L2:     LLL$ w1
        K6G Gwrites
        L 20
        RTN
L3:     LM 2
        SP6
L4:     LP6
        SP15
        SP14
        LP6
        SP 24
        LP4
        LG Gcallco
        K 20
        SP13
        LP6
        SP 24
        LP3
        LG Gcallco
        K 20
        SP12
        LP6
        SP11
        LLL str2
        K7G Gwritef
        LP6
        A1
        SP6
        L3
        JLE L4
        L7
        SP 16
        LW 1000000
        SP 15
        LW 1000000
        K11G Gmuldiv
        SP10
        LG Gresult2
        SP11
        LLL$ w3
        K6G Gwritef
        LP3
        K11G Gdeleteco
        SP10
        LG Gcolist
        LP4
        JNE L5
        LLL$ w5
        J L6
L5:     LLL$ w6
L6:     SP11
        LLL$ w4
        K6G Gwritef
        LF L7
        SP10
        LP5
        K6G Glongjump
        LLL$ w7
        K6G Gwrites
L7:     LLL$ w9
        SP11
        L 'o'
        SP10
        LLL$ w8
        K6G Gwritef
        LP4
        K6G Gdeleteco
        L0
        RTN
w1:     RES str1
w3:     RES str3
w4:     RES str4
w5:     RES str5
w6:     RES str6
w7:     RES str7
w8:     RES str8
w9:     RES str9
        ALIGN 4
str1:   DS "no room*n"
str2:   DS "%i3: sq %i4 double %i4 hex %x4 oct %o3*n"
str3:   DS "muldiv(1000000,1000000,7) = %n rem %n*n"
str4:   DS "deleteco: %n, colist is %s*n"
str5:   DS "d"
str6:   DS "not d"
str7:   DS "never*n"
str8:   DS "%c%s*n"
str9:   DS "ver"
GLOBAL Gstart start
