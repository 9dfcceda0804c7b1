; Functions of the BCPL library that the programs of archive/ do not call. The numbers of the globals come from a table before this text.
; A frame for a call begins at P + 20, so its second argument is P!24. P!4 to P!9 are this program's own.

start:  LM1             ; writef("%u0 %u6 %z5 %z6*n", -1, 7, 42, -42)
        SP 24
        L7
        SP 25
        L 42
        SP 26
        LM 42
        SP 27
        LLL$ tonums
        LGH Gwritef
        K 20
        LLL$ toab       ; writef("%t6| %c %o4 %x8 %$%n %5i|*n", "ab", 'x', 511, -1, 99, 5, 12)
        SP 24
        L 'x'
        SP 25
        LH 511
        SP 26
        LM1
        SP 27
        L 99
        SP 28
        L5
        SP 29
        L 12
        SP 30
        LLL$ toforms
        LGH Gwritef
        K 20
        LW 0x80000000   ; writef("%n %13i %n%% %q*n", the least number, the least number, 0)
        SP 24
        SP 25
        L0
        SP 26
        LLL$ toleast
        LGH Gwritef
        K 20

        LLL$ toabd      ; writef("%n %n %n*n", compstring("abc", "ABD"), compstring("ABC", "abc"), compstring("abc", "ab"))
        SP 24
        LLL$ tosmall
        LGH Gcompstring
        K 20
        SP4
        LLL$ tosmall
        SP 24
        LLL$ tobig
        LGH Gcompstring
        K 20
        SP5
        LLL$ toab
        SP 24
        LLL$ tosmall
        LGH Gcompstring
        K 20
        SP 26
        LP5
        SP 25
        LP4
        SP 24
        LLL$ tothree
        LGH Gwritef
        K 20
        J strings

tonums: RES nums
toab:   RES ab
toforms: RES forms
toleast: RES least
tosmall: RES small
tobig:  RES big
toabd:  RES abd
tothree: RES three

strings: LLP 40         ; unpackstring("Hello", v), v!1 := 'J', packstring(v, w), writes(w), with v at P + 40 and w at P + 60
        SP 24
        LLL$ tohello
        LGH Gunpackstring
        K 20
        L 'J'
        SP 41
        LLP 60
        SP 24
        LLP 40
        LGH Gpackstring
        K 20
        SP4
        LLP 60
        LGH Gwrites
        K 20
        LP4             ; and the answer of packstring
        SP 24
        LLL$ toone
        LGH Gwritef
        K 20

        L 100           ; getvec(1000000) = 0, result2 = 1
        LH 10000
        MUL
        LGH Ggetvec
        K 20
        SP 24
        LGH Gresult2
        SP 25
        LLL$ totwo
        LGH Gwritef
        K 20

        L5              ; setflags(taskid, 5), testflags(4), testflags(7)
        SP 24
        LGH Gtaskid
        LGH Gsetflags
        K 20
        L4
        LGH Gtestflags
        K 20
        SP4
        L7
        LGH Gtestflags
        K 20
        SP 25
        LP4
        SP 24
        LLL$ totwo
        LGH Gwritef
        K 20

        L 63            ; hold(63) = 0, result2 = 2: there is no such task
        LGH Ghold
        K 20
        SP 24
        LGH Gresult2
        SP 25
        LLL$ totwo
        LGH Gwritef
        K 20

        LLL packet      ; qpkt(packet), dqpkt(-1, packet) = -1: it was at the clock
        LGH Gqpkt
        K 20
        LLL packet
        SP 24
        LM1
        LGH Gdqpkt
        K 20
        SP 24
        LGH Gresult2
        SP 25
        LLL$ totwo
        LGH Gwritef
        K 20
        J calls

        ALIGN 4
packet: DW -1
        DW -1
        DW 0
        DW 0
        DW 0
        DW 1000
tohello: RES hello
toone:  RES one
totwo:  RES two

calls:  L7              ; sys(26, 7, 10, 4) = 17, result2 = 2
        SP 24
        L10
        SP 25
        L4
        SP 26
        L 26
        LGH Gsys
        K 20
        SP 24
        LGH Gresult2
        SP 25
        LLL$ twotoo
        LGH Gwritef
        K 20
        L '!'           ; sys(11, '!'), and v := sys(21, 3), v!3 := 8, sys(22, v)
        SP 24
        L 11
        LGH Gsys
        K 20
        L3
        SP 24
        L 21
        LGH Gsys
        K 20
        SP4
        L8
        LP4
        ST3
        LP4
        RV3
        SP 25
        LP4
        SP 24
        L 22
        LGH Gsys
        K 20
        SP 24
        LLL$ twotoo
        LGH Gwritef
        K 20

        L 50            ; callco(createco(first, 50), 20): first resumes second with 21, which doubles it
        SP 24
        LF second
        LGH Gcreateco
        K 20
        SG 190
        L 50
        SP 24
        LF first
        LGH Gcreateco
        K 20
        SP4
        L 20
        SP 24
        LP4
        LGH Gcallco
        K 20
        SP 24
        LLL$ onetoo
        LGH Gwritef
        K 20

        LGH Greadn      ; readn() of "  -12 +34x": -12, 34, the character x, and 0 with result2 = -1
        K 20
        SP4
        LGH Greadn
        K 20
        SP 25
        LP4
        SP 24
        LLL$ twotoo
        LGH Gwritef
        K 20
        LGH Greadn
        K 20
        SP 24
        LGH Gresult2
        SP 25
        LGH Grdch
        K 20
        SP 26
        LLL$ tolast
        LGH Gwritef
        K 20
        L0
        RTN

first:  A1
        SP8
        LG 190
        LGH Gresumeco
        K4
        RTN
second: AP3
        RTN
tolast: RES last
onetoo: RES one
twotoo: RES two

nums:   DS "%u0 %u6 %z5 %z6*n"
forms:  DS "%t6| %c %o4 %x8 %$%n %5i|*n"
ab:     DS "ab"
least:  DS "%n %13i %n%% %q*n"
small:  DS "abc"
big:    DS "ABC"
abd:    DS "ABD"
three:  DS "%n %n %n*n"
hello:  DS "Hello"
one:    DS " %n*n"
two:    DS "%n %n*n"
last:   DS "%n %n %c*n"
GLOBAL Gstart start
