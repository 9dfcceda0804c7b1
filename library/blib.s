; A BCPL library for this kernel: the start and the end of a task, calls of the kernel, coroutines, packets. Streams are in blib-streams.s,
; characters, numbers and strings in blib-text.s. The numbers of the globals come from a table, libhdr.set or another, and bin/blib makes
; the module of all of them. library/blib.md says what each function does.
; The library is the last module of a task, and takes global 1: boot finds the start of the program in the task's modules.

GLOBAL Gstart boot
GLOBAL Gstop stop
GLOBAL Gsys sys
GLOBAL Gmuldiv muldiv
GLOBAL Gchangeco changeco
GLOBAL Glevel level
GLOBAL Glongjump longjump
GLOBAL Gabort abort
GLOBAL Ggetvec getvec
GLOBAL Gfreevec freevec
GLOBAL Gcreateco createco
GLOBAL Gdeleteco deleteco
GLOBAL Gcallco callco
GLOBAL Gcowait cowait
GLOBAL Gresumeco resumeco
GLOBAL Ginitco initco
GLOBAL Gqpkt qpkt
GLOBAL Gdqpkt dqpkt
GLOBAL Gtaskwait taskwait
GLOBAL Gsendpkt sendpkt
GLOBAL Gdelay delay
GLOBAL Gsetflags setflags
GLOBAL Gtestflags testflags
GLOBAL Gchangepri changepri
GLOBAL Ghold hold
GLOBAL Grelease release

; ---- the beginning and the end of a task
;
; boot(packet). P!3 is the packet, P!4 the program's start, and P!5 a block of this task: its words 0 to 5 are the root coroutine, 8 to 43
; the stream that reads the console, 48 to 50 the one that writes it. P!6 to P!12 are for the search.

boot:   SP3
        L 100
        SGH Grootnode
        L 102
        RV
        SGH Gtcb
        RV1
        SGH Gtaskid
        L0
        SP4
        LGH Gtcb        ; P!6 := where the next module is named: words 10 and 23 to 29 of the task block
        A 10
        SP6
module: LP6
        RV
        JEQ0$ tofound
        SP7             ; P!7 := the module, P!8 := hunks left, P!9 := where the next length is, P!10 := the hunk
        RV1
        SP8
        AP7
        A2
        SP10
        LP7
        A2
        SP9
hunk:   LP8
        JEQ0 nextm
        S1
        SP8
        L0P9            ; P!11 := the hunk's length
        SP11
        LP9
        A1
        SP9
        LP11
        JEQ0 nexth
        LP10            ; P!12 := its last word, and then one pair after the other
        AP11
        S1
        SP12
        RV
        JEQ0 nexth
pair:   LP12
        S2
        SP12
        LP10
        JLS nexth
        LP12
        RV1
        JEQ0 nexth
        SP 13
        L0P12
        L1
        JNE pair
        LP10
        L2
        LSH
        AP 13
        SP 13
        LF boot
        JEQ pair
        LP 13
        SP4
        J pair
tofound: RES found
nexth:  LP10
        AP11
        SP10
        J hunk
nextm:  LP6             ; after word 10 comes word 23, which version 2 has
        S 10
        LGH Gtcb
        JNE later
        L 111
        RV
        L2
        JNE found
        LGH Gtcb
        A 22
        SP6
later:  LP6
        A1
        SP6
        LGH Gtcb
        SUB
        L 29
        JLE module

found:  L 20            ; what it ends with where there is no room
        SGH Greturncode
        L 60
        LGH Ggetvec
        K 16
        SP5
        JEQ0 fin
        SGH Gcurrco
        LM1
        LP5
        ST1
        L0
        SGH Gcolist
        SGH Gresult2
        L1              ; cis: type 1, stream 0, nothing read
        LP5
        A 8
        SGH Gcis
        ST
        L0
        LGH Gcis
        ST1
        ST2
        ST3
        L2              ; cos: type 2, stream 0, nothing written
        LP5
        A 48
        SGH Gcos
        ST
        L0
        LGH Gcos
        ST1
        ST2
        LP3             ; returncode := start(packet)
        LP4
        K 16
        SGH Greturncode
fin:    LP5
        LGH Gfreevec
        K 16
        L0
        SGH Gcis
        SGH Gcos
        LP3             ; a packet of the shell that has not gone back yet goes back: its link is -1, its type 10
        JEQ0 dead
        RV
        LM1
        JNE dead
        LP3
        RV2
        L10
        JNE dead
        LGH Greturncode
        LP3
        ST3
        LP3
        LGH Gqpkt
        K 16
dead:   L0
        RTN

; stop(code, reason) goes on at fin, in the frame of boot, which is at the bottom of the stack
stop:   SGH Greturncode
        LP4
        SGH Gresult2
        LGH Gtcb
        RV6
        SP 0
        LF fin
        SP 1
        RTN

; abort(code) is a fault, with the code in A
abort:  BRK
        RTN

; ---- jumps out of functions

level:  LP 0
        RTN

longjump: LP3
        SP 0
        LP4
        SP 1
        RTN

; ---- calls of the kernel: the number comes before the arguments, and B goes to result2

taskwait: L10
        J shift
getvec: L1
        J shift
freevec: L2
        J shift
changepri: L5
        J shift
setflags: L6
        J shift
testflags: L7
        J shift
hold:   L8
        J shift
release: L9
        J shift
qpkt:   L 11
        J shift
dqpkt:  L 12
        J shift
muldiv: L 20
shift:  SP7
        LP5
        SP6
        LP4
        SP5
        LP3
        SP4
        LP7
kernel: SP3
        SYS
        XCH
        SGH Gresult2
        XCH
        RTN

; sys(op, a, b, c): 0 quit, 10 rdch, 11 wrch, 21 getvec, 22 freevec, 26 muldiv, 30 the ticks so far. Another one is abort(op).
sys:    SWB
        ALIGN 2
        DH 7
        RES sysbad
        DH 21
        RES sys21
        DH 10
        RES sys10
        DH 26
        RES sys26
        DH 0
        RES sys0
        DH 11
        RES sys11
        DH 22
        RES sys22
        DH 30
        RES sys30
sys0:   L0
        J kernel
sys10:  K4GH Grdch
        RTN
sys11:  L 19
        J kernel
sys21:  L1
        J kernel
sys22:  L2
        J kernel
sys26:  L 20
        J kernel
sys30:  L 108
        RV
        RTN
sysbad: K4GH Gabort
        RTN

; ---- coroutines. Words 0 to 5 of one: its P while it does not run, its parent, the next one of colist, fn, size and c of createco's frame.

; changeco(value, c). RTN goes on after the call, with the P of the other coroutine, so the caller has to return at once.
changeco: LP 0          ; currco!0 := the caller's P
        S0GH Gcurrco
        LP4
        SGH Gcurrco
        RV
        SP 0
        LP3
        RTN

; createco(fn, size): the new block is a frame of createco itself, with fn, size and c in its words 3 to 5
createco: LP4
        A 6
        K6GH Ggetvec
        JEQ0 cnone
        SP5
        LP5
        ST
        LGH Gcurrco
        LP5
        ST1
        LGH Gcolist
        LP5
        ST2
        LP3
        LP5
        ST3
        LP4
        LP5
        A4
        ST
        LP5
        LP5
        A5
        ST
        LP5
        SGH Gcolist
        SP10            ; changeco(0, c): what follows is done in the frame c
        L0
        K6GH Gchangeco
cnext:  LP5             ; c := fn(cowait(c)), for ever
        K6GH Gcowait
        LP3
        K6
        SP5
        J cnext
cnone:  RTN

callco: RV1             ; abort(110) if it has a parent
        JEQ0 callok
        L 110
        K5GH Gabort
callok: LGH Gcurrco
        LP3
        ST1
        LP3
        SP9
        LP4
        K5GH Gchangeco
        RTN

resumeco: L1GH Gcurrco
        SP5
        L0
        LGH Gcurrco
        ST1
        LP3             ; abort(111) if it has a parent
        RV1
        JEQ0 resok
        L 111
        K6GH Gabort
resok:  LP5
        LP3
        ST1
        LP3
        SP10
        LP4
        K6GH Gchangeco
        RTN

cowait: L1GH Gcurrco
        SP8
        L0
        LGH Gcurrco
        ST1
        LP3
        K4GH Gchangeco
        RTN

deleteco: LLGH Gcolist  ; P!4 := the address of the link to the next one, P!5 := that one
        SP4
dnext:  LP4
        RV
        SP5
        JEQ0 dno
        LP3
        JEQ dfound
        LP5
        A2
        SP4
        J dnext
dfound: RV1             ; abort(112) if it has a parent
        JEQ0 dok
        L 112
        K6GH Gabort
dok:    LP3
        RV2
        LP4
        ST
        LP3
        K6GH Gfreevec
        LM1
dno:    RTN

; initco(fn, size, a, b, ..) hands it the address of a
initco: LP4
        SP 21
        LP3
        LGH Gcreateco
        K 17
        SP16
        JEQ0 inone
        LLP 5
        SP 21
        LP16
        LGH Gcallco
        K 17
        LP16
inone:  RTN

; ---- packets

; sendpkt(link, id, type, res1, res2, a1, a2, a3): its own arguments are the packet
sendpkt: LLP 3
        LGH Gqpkt
        K 14
        JEQ0 snone
        LGH Gtaskwait
        K 14
        LLP 3
        JEQ sgot
        L 182           ; another packet came first
        LGH Gabort
        K 14
sgot:   LP7
        SGH Gresult2
        LP6
        RTN
snone:  LM1
        RTN

; delay(ticks): sendpkt(-1, -1, 0, ?, ?, ticks)
delay:  SP12
        LM1
        SP8
        L0
        SP9
        LM1
        K4GH Gsendpkt
        RTN

