; SECTION "sieve"  GET "libhdr"  MANIFEST { upb = 999 }
; LET start() = VALOF
; { LET isprime, count = getvec(upb), 0
;   UNLESS isprime DO { writes("no room*n"); stop(20, 0) }
;   FOR i = 2 TO upb DO isprime!i := TRUE
;   FOR p = 2 TO upb IF isprime!p DO
;   { LET i = p*p
;     UNTIL i>upb DO { isprime!i := FALSE; i := i + p }
;     writed(p, 4); count := count+1
;     IF count REM 16 = 0 DO newline() }
;   newline(); writef("%n primes up to %n*n", count, upb); freevec(isprime)
;   RESULTIS 0 }
; Compiled by hand, as a BCPL compiler for Cintcode does it.

; of the header
SET Gstart 1
SET Gstop 2
SET Ggetvec 25
SET Gfreevec 27
SET Gnewline 84
SET Gwrited 86
SET Gwrites 90
SET Gwritef 94

        ALIGN 4
        DW 0xFDDF       ; SECTION sieve
        DW 0x6569730b
        DW 0x20206576
        DW 0x20202020
        ALIGN 4
        DW 0xDFDF       ; ENTRY start
        DW 0x6174730b
        DW 0x20207472
        DW 0x20202020
start:  LH 999
        K3G Ggetvec
        SP3
        L0
        SP4
        LP3
        JNE0 L3
        LLL str1
        K5G Gwrites
        L0
        SP9
        L 20
        K5G Gstop
L3:     L2
        SP5
L4:     LM1
        LP5
        STP3
        LP5
        A1
        SP5
        LH 999
        JLE L4
        L2
        SP5
L5:     LP5
        RVP3
        JEQ0 L8
        LP5
        LP5
        MUL
        SP6
        J L7
L6:     L0
        LP6
        STP3
        LP6
        AP5
        SP6
L7:     LP6
        LH 999
        JLE L6
        L4
        SP11
        LP5
        K7G Gwrited
        LP4
        A1
        SP4
        L 16
        REM
        JNE0 L8
        K6G Gnewline
L8:     LP5
        A1
        SP5
        LH 999
        JLE L5
        K5G Gnewline
        LH 999
        SP10
        LP4
        SP9
        LLL str2
        K5G Gwritef
        LP3
        K5G Gfreevec
        L0
        RTN
str1:   DS "no room*n"
str2:   DS "%n primes up to %n*n"
GLOBAL Gstart start
