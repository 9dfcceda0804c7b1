; show, global 60: writes A and B in decimal, with a blank between them and a line end, and leaves both as they
; are. It is a module of its own, with which a program of version 2 shows what a call has answered.

GLOBAL 60 show
show:   XCH             ; P!4 := B; P!3 is A
        SP4
        LP3
        LF print
        K8
        L 32
        LF wrch
        K8
        LP4
        LF print
        K8
        L10
        LF wrch
        K8
        LP4             ; B and A as they were
        LP3
        RTN

print:  JGE0 digits     ; writes the number in A in decimal, with a - before one below 0
        L 45
        LF wrch
        K4
        LP3
        NEG
        SP3
digits: LP3
        L10
        DIV
        JEQ0 last
        LF print
        K4
last:   LP3
        L10
        REM
        A 48
        LF wrch
        K4
        RTN

wrch:   SP4             ; writes the character in A
        L 19
        SP3
        SYS
        RTN
