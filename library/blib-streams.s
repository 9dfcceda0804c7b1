; The streams of the BCPL library blib.s.

GLOBAL Grdch rdch
GLOBAL Gunrdch unrdch
GLOBAL Gwrch wrch
GLOBAL Gfindinput findinput
GLOBAL Gfindoutput findoutput
GLOBAL Gselectinput selectinput
GLOBAL Gselectoutput selectoutput
GLOBAL Ginput input
GLOBAL Goutput output
GLOBAL Gendread endread
GLOBAL Gendwrite endwrite
GLOBAL Gendstream endstream

; ---- streams. Word 0 of one is 1 if it reads and 2 if it writes, word 1 the stream's number, or 0 for the console, word 2 how many bytes of
; the buffer are done, word 3 how many it has. The buffer begins at word 4.

rdch:   LGH Gcis
        JEQ0 reof
        RV2
        SP3
        LGH Gcis
        RV3
        LP3
        JGR rbyte
        LGH Gcis
        RV1
        JEQ0 rcon
        SP12            ; sendpkt(-1, 4, 12, ?, ?, stream, buffer, 512)
        LGH Gcis
        A4
        SP13
        LH 512
        SP14
        L4
        SP8
        L 12
        SP9
        LM1
        K4GH Gsendpkt
        JLE0 reof
        J rend
rcon:   LGH Gcis        ; sendpkt(-1, 3, 1, ?, ?, buffer, 120), and a line end after the line
        A4
        SP12
        L 120
        SP13
        L3
        SP8
        L1
        SP9
        LM1
        K4GH Gsendpkt
        JLS0 reof
        SP3
        L10
        ATC
        LGH Gcis
        A4
        LP3
        PBYT
        LP3
        A1
rend:   LGH Gcis
        ST3
        L0
        LGH Gcis
        ST2
        J rdch
rbyte:  LP3
        A1
        LGH Gcis
        ST2
        A4
        LP3
        GBYT
        RTN
reof:   LM1
        RTN

unrdch: LGH Gcis
        JEQ0 uno
        RV2
        S1
        JLS0 uno
        LGH Gcis
        ST2
        LM1
        RTN
uno:    L0
        RTN

wrch:   LGH Gcos
        JEQ0 wcon
        RV1
        JEQ0 wcon
        LP3
        ATC
        LGH Gcos
        RV2
        SP4
        LGH Gcos
        A4
        LP4
        PBYT
        LP4
        A1
        SP4
        LGH Gcos
        ST2
        LH 512
        LP4
        JNE wend
        LGH Gcos
        LF flush
        K5
wend:   LP3
        RTN
wcon:   LP3
        SP4
        L 19
        SP3
        SYS
        RTN

; flush(stream) appends what is in its buffer to the file: sendpkt(-1, 4, 13, ?, ?, stream, buffer, count)
flush:  RV2
        JEQ0 fend
        SP14
        LP3
        RV1
        SP12
        LP3
        A4
        SP13
        L4
        SP8
        L 13
        SP9
        LM1
        K4GH Gsendpkt
        L0
        LP3
        ST2
fend:   RTN

findinput: L10
        SP8
        LP3
        LF open
        K4
        RTN
findoutput: L 11
        SP8
        LP3
        LF open
        K4
        RTN

; open(name, type): the console for the name of one star, else sendpkt(-1, 4, type, ?, ?, name)
open:   LP3
        L0
        GBYT
        L1
        JNE ofile
        LP3
        L1
        GBYT
        L '**'
        JNE ofile
        LGH Gtcb        ; P!5 of the frame of boot
        RV6
        RV5
        A 8
        SP5
        LP4
        L10
        JEQ ocon
        LP5
        A 40
        RTN
ocon:   LP5
        RTN
ofile:  L 132
        K6GH Ggetvec
        SP5
        JEQ0 onone
        L4
        SP10
        LP4
        SP11
        LP3
        SP14
        LM1
        K6GH Gsendpkt
        JLS0 orefus
        LP5
        ST1
        LP4
        S 9
        LP5
        ST
        L0
        LP5
        ST2
        ST3
        RTN
orefus: LGH Gresult2
        SP4
        LP5
        K6GH Gfreevec
        LP4
        SGH Gresult2
        L0
onone:  RTN

endstream: JEQ0 eend
        RV1
        JEQ0 eend
        LP3
        RV
        L1
        JEQ eread
        LP3
        LF flush
        K4
eread:  L4              ; sendpkt(-1, 4, 14, ?, ?, stream)
        SP8
        L 14
        SP9
        LP3
        RV1
        SP12
        LM1
        K4GH Gsendpkt
        LP3
        K4GH Gfreevec
eend:   RTN

endread: LGH Gcis
        K3GH Gendstream
        L0
selectinput: SGH Gcis
        RTN
endwrite: LGH Gcos
        K3GH Gendstream
        L0
selectoutput: SGH Gcos
        RTN
input:  LGH Gcis
        RTN
output: LGH Gcos
        RTN

