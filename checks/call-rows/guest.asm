; Goes through a table of calls. For each row it writes the call's name and its arguments, makes it, and writes what came back:
; " = " and A, or " code " and B. Where another task goes on than the one that wrote last, it writes that task's number first.
; A row is four words: the number, and three arguments. After the numbers of the kernel's calls are those of the guest itself:
; 24 writes a word, 25 looks at one, 26 returns, and from 30 on the file handler is asked, with the type 20 less.
start:      SL$ pa              ; what came back
            XCH
            SL$ pb
            L 102               ; the number of the task that runs
            RV
            RV1
            LL$ plast
            JEQ same
            XCH
            SL$ plast
            LF$ ptask
            SL$ ptext
            LF$ pswitched
            SL$ pback
            J$ pputs
switched:   LL$ plast
            SL$ pn
            LF$ pcolon
            SL$ pback
            J$ pputn
colon:      L 58
            SP4
            L 19
            SP3
            SYS
same:       LL$ pb
            JEQ0 accepted
            LF$ pcode
            SL$ ptext
            LF$ prefused
            SL$ pback
            J$ pputs
refused:    LL$ pb
            J number
accepted:   LF$ pis
            SL$ ptext
            LF$ panswer
            SL$ pback
            J$ pputs
answer:     LL$ pa
number:     SL$ pn
            LF$ pnewline
            SL$ pback
            J$ pputn
newline:    L 10
            SP4
            L 19
            SP3
            SYS
            LL$ prow            ; the next row
            RV
            SL$ pop
            LL$ pop
            L1
            LSH
            LLL$ pnames
            ADD
            SL$ pentry
            RV
            L2
            LSH
            SL$ ptext
            LF$ pnamed
            SL$ pback
            J$ pputs
named:      LL$ pentry          ; its arguments, as many as the call has
            RV1
            SL$ pleft
            LL$ prow
            SL$ pplace
arguments:  LL$ pleft
            JEQ0 do
            S1
            SL$ pleft
            L 32
            SP4
            L 19
            SP3
            SYS
            LL$ pplace
            A1
            SL$ pplace
            RV
            SL$ pn
            LF$ parguments
            SL$ pback
            J$ pputn
do:         LL$ prow
            RV1
            SP4
            LL$ prow
            RV2
            SP5
            LL$ prow
            RV3
            SP6
            LL$ prow
            A4
            SL$ prow
            LL$ pop
            SP3
            L 24
            JEQ put
            JGR other
            SYS
            J$ pstart
put:        LP5
            LP4
            ST
            J$ pnewline
other:      L 25
            LL$ pop
            JEQ look
; -- requests
            L 30
            LL$ pop
            JGR give
            S 20                ; a request to the file handler, which is task 4
            SL$ pkind
            L 4
            SL$ pto
            LP4
            SL$ pfirst
            LP5
            SL$ psecond
            LP6
            SL$ pthird
            LLL$ ppacket
            SP4
            L 11
            SP3
            SYS
            L10
            SP3
            SYS
            LL$ pres2
            LL$ pres1
            J$ pstart
; --
give:       LP4
            RTN
look:       L0
            LP4
            RV
            J$ pstart

; the text at the byte address in text; then on to back
puts:       L0
            LL$ ptext
            GBYT
            JEQ0 all
            SP4
            L 19
            SP3
            SYS
            LL$ ptext
            A1
            SL$ ptext
            J puts
all:        LL$ pback
            GOTO

; the number in n, signed and in decimal; then on to back
putn:       LL$ pn
            JGE0 positive
            L 45
            SP4
            L 19
            SP3
            SYS
            LL$ pn
            NEG
            SL$ pn
positive:   LW 1000000000
            SL$ pten
            L0
            SL$ psome
digit:      LL$ pn
            LL$ pten
            DIV
            SL$ pquotient
            LL$ pquotient
            JNE0 show
            LL$ psome
            JNE0 show
            LL$ pten
            S1
            JNE0 skip
show:       L1
            SL$ psome
            LL$ pquotient
            A 48
            SP4
            L 19
            SP3
            SYS
skip:       LL$ pn
            LL$ pten
            REM
            SL$ pn
            LL$ pten
            L10
            DIV
            SL$ pten
            JNE0 digit
            LL$ pback
            GOTO
