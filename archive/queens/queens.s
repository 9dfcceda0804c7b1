; SECTION "queens"  GET "libhdr"  GLOBAL { count:ug; all }   (ug = 200)
; LET try(ld, row, rd) BE TEST row=all THEN count := count+1 ELSE
; { LET poss = all & ~(ld | row | rd)
;   WHILE poss DO { LET p = poss & -poss
;                   poss := poss - p
;                   try(ld+p << 1, row+p, rd+p >> 1) } }
; LET start() = VALOF { all := 1
;   FOR i = 1 TO 8 DO { count := 0; try(0,0,0)
;     writef("Number of solutions to %i2-queens is %i5*n", i, count); all := 2*all+1 }
;   RESULTIS 0 }
; Compiled by hand, as a BCPL compiler for Cintcode does it.

; of the header
SET Gstart 1
SET Gwritef 94
; its own globals
SET count 200
SET all 201

        ALIGN 4
        DW 0xFDDF       ; SECTION queens
        DW 0x6575710b
        DW 0x20736e65
        DW 0x20202020
        ALIGN 4
        DW 0xDFDF       ; ENTRY try
        DW 0x7972740b
        DW 0x20202020
        DW 0x20202020
try:    LP4
        LG all
        JNE L3
        L1
        AG count
        SG count
        RTN
L3:     LP3
        LP4
        OR
        LP5
        OR
        NOT
        LG all
        AND
        SP6
        J L5
L4:     LP6
        NEG
        LP6
        AND
        SP7
        LP6
        LP7
        SUB
        SP6
        LP5
        AP7
        L1
        RSH
        SP13
        LP4
        AP7
        SP12
        LP3
        AP7
        L1
        LSH
        LF try
        K8
L5:     LP6
        JNE0 L4
        RTN
        ALIGN 4
        DW 0xDFDF       ; ENTRY start
        DW 0x6174730b
        DW 0x20207472
        DW 0x20202020
start:  L1
        SG all
        L1
        SP3
L6:     L0
        SG count
        L0
        SP9
        SP8
        L0
        LF try
        K4
        LG count
        SP9
        LP3
        SP8
        LLL str1
        K4G Gwritef
        L2
        LG all
        MUL
        A1
        SG all
        LP3
        A1
        SP3
        L8
        JLE L6
        L0
        RTN
str1:   DS "Number of solutions to %i2-queens is %i5*n"
GLOBAL Gstart start
