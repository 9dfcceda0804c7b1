; The characters, numbers and strings of the BCPL library blib.s.

GLOBAL Gnewline newline
GLOBAL Gnewpage newpage
GLOBAL Gwrited writed
GLOBAL Gwriten writen
GLOBAL Gwriteu writeu
GLOBAL Gwritez writez
GLOBAL Gwritehex writehex
GLOBAL Gwriteoct writeoct
GLOBAL Gwrites writes
GLOBAL Gwritet writet
GLOBAL Gwritef writef
GLOBAL Greadn readn
GLOBAL Gcapitalch capitalch
GLOBAL Gcompch compch
GLOBAL Gcompstring compstring
GLOBAL Gpackstring packstring
GLOBAL Gunpackstring unpackstring

; ---- characters and strings

newline: L10
        K3GH Gwrch
        RTN
newpage: L 12
        K3GH Gwrch
        RTN

capitalch: L 'a'
        JLS cap1
        LP3
        L 'z'
        JGR cap1
        LP3
        S 32
        RTN
cap1:   LP3
        RTN

; compch(a, b): below 0, 0 or above 0, capital letters and small ones being the same
compch: K6GH Gcapitalch
        SP5
        LP4
        K6GH Gcapitalch
        LP5
        XCH
        SUB
        RTN

; compstring(s, t): P!5 the place, P!6 the length of s, P!7 that of t
compstring: L0
        SP5
        GBYT
        SP6
        LP4
        L0
        GBYT
        SP7
cs1:    LP5
        A1
        SP5
        LP6
        JGR cs2
        LP5
        LP7
        JGR cs2
        LP4
        LP5
        GBYT
        SP 12
        LP3
        LP5
        GBYT
        K8GH Gcompch
        JEQ0 cs1
        RTN
cs2:    LP6             ; one is the beginning of the other: the shorter one is less
        LP7
        SUB
        RTN

; packstring(v, s): the characters of the vector v, of which v!0 is the number, as the string s; the number of words of s less 1
packstring: RV          ; P!5 := the number, P!6 := the place
        L 255
        AND
        SP5
        L2
        RSH
        SP7
        L0
        LP4
        AP7
        ST
        L0
        SP6
ps1:    LP3
        AP6
        RV
        ATC
        LP4
        LP6
        PBYT
        LP6
        A1
        SP6
        LP5
        JLE ps1
        LP7
        RTN

; unpackstring(s, v)
unpackstring: L0
        GBYT
        SP5
        L0
        SP6
us1:    LP3
        LP6
        GBYT
        LP4
        AP6
        ST
        LP6
        A1
        SP6
        LP5
        JLE us1
        RTN

writes: L0
        GBYT
        SP4
        L0
        SP5
ws1:    LP5
        LP4
        JEQ ws2
        LP5
        A1
        SP5
        LP3
        LP5
        GBYT
        K6GH Gwrch
        J ws1
ws2:    RTN

; writet(s, width)
writet: K5GH Gwrites
        LP3
        L0
        GBYT
        SP5
wt1:    LP5
        LP4
        JGE wt2
        L 32
        K6GH Gwrch
        LP5
        A1
        SP5
        J wt1
wt2:    RTN

; ---- numbers

writen: L0
        SP8
        LP3
        K4GH Gwrited
        RTN

; writeu(n, width), of n without a sign: what n / 10 is goes first
writeu: L1
        RSH
        L5
        DIV
        SP5
        JEQ0 wu1
        LP4
        S1
        SP 10
        LP5
        K6GH Gwrited
        L1
        SP4
wu1:    LP4
        SP 10
        LP5
        L10
        MUL
        LP3
        XCH
        SUB
        K6GH Gwrited
        RTN

; writez(n, width) fills with zeros, and writed(n, width) with blanks. The sign comes before zeros, and after blanks.
writez: JGE0 wz1
        L '-'
        K6GH Gwrch
        LP4
        S1
        SP4
        LP3
        J wz2
wz1:    LP3
        NEG
wz2:    SP3             ; P!3 := -|n|
        LP4
        SP 10
        L '0'
        SP 11
        L0
        SP 12
        LP3
        LF fill
        K6
        LP3
        LF digits
        K6
        RTN

writed: JLS0 wd1
        NEG
        SP5
        L0
        J wd2
wd1:    SP5
        L1
wd2:    SP 12
        LP4
        SP 10
        L 32
        SP 11
        LP5
        LF fill
        K6
        LP3
        JGE0 wd3
        L '-'
        K6GH Gwrch
wd3:    LP5
        LF digits
        K6
        RTN

; fill(-n, width, character, characters so far): as many as are left of the width before the digits of n
fill:   LP6
        A1
        SP6
        LP3
        L10
        DIV
        SP3
        JNE0 fill
fl1:    LP4
        LP6
        JLE fl2
        LP5
        K7GH Gwrch
        LP6
        A1
        SP6
        J fl1
fl2:    RTN

; digits(-n), so that the least number has no case of its own
digits: L10
        DIV
        JEQ0 digit
        LF digits
        K4
digit:  LP3
        L10
        REM
        NEG
        A '0'
        K4GH Gwrch
        RTN

; writehex(n, d) and writeoct(n, d): the last d digits
writehex: LP4
        L1
        JLE wh1
        LP4
        S1
        SP9
        LP3
        L4
        RSH
        K5GH Gwritehex
wh1:    LP3
        L 15
        AND
        SP4
        L 9
        JLE wh2
        LP4
        A 7
        SP4
wh2:    LP4
        A '0'
        K5GH Gwrch
        RTN

writeoct: LP4
        L1
        JLE wo1
        LP4
        S1
        SP9
        LP3
        L3
        RSH
        K5GH Gwriteoct
wo1:    LP3
        L7
        AND
        A '0'
        K5GH Gwrch
        RTN

; readn(): a number of the input, after blanks, tabs and line ends; result2 is 0, or -1 if there is none. The character after it is left.
; P!3 the number, P!4 the character, P!5 whether a - came
readn:  L0
        SP3
        SP5
rn1:    K6GH Grdch
        SP4
        L 32
        JEQ rn1
        LP4
        L10
        JEQ rn1
        LP4
        L9
        JEQ rn1
        LP4
        L '+'
        JEQ rn2
        LP4
        L '-'
        JNE rn3
        LM1
        SP5
rn2:    K6GH Grdch
        SP4
rn3:    LP4             ; a digit is due
        LF isdigit
        K6
        JEQ0 rnbad
rn4:    LP3
        L10
        MUL
        AP4
        S '0'
        SP3
        K6GH Grdch
        SP4
        LF isdigit
        K6
        JNE0 rn4
        K6GH Gunrdch
        L0
        SGH Gresult2
        LP5
        JEQ0 rn5
        LP3
        NEG
        RTN
rn5:    LP3
        RTN
rnbad:  K6GH Gunrdch
        LM1
        SGH Gresult2
        L0
        RTN

isdigit: L '0'
        JLS id1
        LP3
        L '9'
        JGR id1
        LM1
        RTN
id1:    L0
        RTN

; writef(format, a, b, ..): P!15 the next argument, P!16 the place in the format, P!17 the width, P!18 the character, and then the function
writef: LLP 4
        SP15
        L0
        SP16
wf1:    LP3             ; up to the length of the format
        L0
        GBYT
        LP16
        JLE wfx
        LP16
        A1
        SP16
        LP3
        LP16
        GBYT
        SP 18
        L '%'
        JEQ wfp
wfd:    LP 18           ; any other character is written
        LGH Gwrch
        K 19
        J wf1
wfx:    RTN
wfp:    L0
        SP 17
wfn:    LP16            ; the letter, and digits before it
        A1
        SP16
        LP3
        LP16
        GBYT
        SP 18
        S '0'
        JLS0 wfs
        L 9
        JGR wfs
        L10
        LP 17
        MUL
        AP 18
        S '0'
        SP 17
        J wfn
wfs:    LP 18
        LGH Gcapitalch
        K 19
        SWB             ; a tree, in which every key below T is on the left
        ALIGN 2
        DH 10
        RES wfd
        DH 'T'
        RES wfT
        DH 'N'
        RES wfN
        DH 'X'
        RES wfX
        DH 'C'
        RES wfC
        DH 'S'
        RES wfS
        DH 'U'
        RES wfU
        DH 'Z'
        RES wfZ
        DH '$'
        RES wfskip
        DH 'I'
        RES wfI
        DH 'O'
        RES wfO
wfI:    LGH Gwrited
        J wfm
wfZ:    LGH Gwritez
        J wfm
wfU:    LGH Gwriteu
        J wfm
wfX:    LGH Gwritehex
        J wfm
wfO:    LGH Gwriteoct
        J wfm
wfT:    LGH Gwritet
        J wfm
wfC:    LGH Gwrch
        J wfl
wfN:    LGH Gwriten
        J wfl
wfS:    LGH Gwrites
wfl:    SP 18
        J wfc
wfm:    SP 18           ; a digit or a letter after the letter is the width, if no digits came before it
        LP 17
        JNE0 wfc
        LP16
        A1
        SP16
        LP3
        LP16
        GBYT
        LGH Gcapitalch
        K 19
        S '0'
        SP 17
        L 9
        JLE wfc
        LP 17
        S 7
        SP 17
wfc:    LP 17           ; function(argument, width)
        SP 23
        LP15
        RV
        LP 18
        K 19
wfskip: LP15
        A1
        SP15
        J$ wfback
wfback: RES wf1
