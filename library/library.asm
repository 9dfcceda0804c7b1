; A library for guests: characters, numbers, strings, vectors, packets, the clock, files
; and lines of the console. In version 2 it is a module beside the program's own; in
; version 1 its text is put after the program's. The program calls a function by its
; global, as K8G 202, with the first argument in A, and finds the answer in A.
;
; Global 239 is the second result of the last request or call: 0, or the code with which
; it was refused. Globals 240 to 247 are the packet of all requests; a second one is not
; sent before it is back. Global 248 is the first vector of newvec, or 0.

GLOBAL 200 wrch
GLOBAL 201 newline
GLOBAL 202 writes
GLOBAL 203 writen
GLOBAL 204 writed
GLOBAL 205 writehex
GLOBAL 206 getvec
GLOBAL 207 freevec
GLOBAL 208 newvec
GLOBAL 209 freevecs
GLOBAL 210 compare
GLOBAL 211 copystring
GLOBAL 212 sendpkt
GLOBAL 213 delay
GLOBAL 214 request
GLOBAL 215 findinput
GLOBAL 216 findoutput
GLOBAL 217 readbytes
GLOBAL 218 writebytes
GLOBAL 219 endstream
GLOBAL 220 readline
GLOBAL 221 digits
GLOBAL 222 ask

; wrch(ch) writes a character.
wrch:   SP4
        L 19
        SP3
        SYS
        RTN

; newline() writes a line end.
newline: L10
        K4G 200
        RTN

; writes(s) writes a string. P!4 is its length, and P!5 how much of it is written.
writes: L0
        GBYT
        SP4
        L0
        SP5
write1: LP5
        LP4
        JEQ write2
        LP5
        A1
        SP5
        LP3
        LP5
        GBYT
        K6G 200
        J write1
write2: RTN

; writen(n) writes a number in decimal, below 0 with a -.
writen: L0              ; writed(n, 0)
        SP9
        LP3
        K5G 204
        RTN

; writed(n, d) writes a number in decimal, with blanks before it up to d places. P!5 is
; how many characters it has.
writed: L1
        SP5
        LP3
places: L10             ; one more for each digit but the last,
        DIV
        JEQ0 sign
        SP6
        LP5
        A1
        SP5
        LP6
        J places
sign:   LP3             ; and one for the -
        JGE0 blanks
        LP5
        A1
        SP5
blanks: LP4
        LP5
        JLE number
        L 32
        K7G 200
        LP5
        A1
        SP5
        J blanks
number: LP3             ; digits are written of a number of at most 0
        JLS0 minus
        NEG
        K7G 221
        RTN
minus:  L 45
        K7G 200
        LP3
        K7G 221
        RTN

; digits(x) writes -x, for an x of at most 0.
digits: L10
        DIV
        JEQ0 digit
        K4G 221
digit:  LP3
        L10
        REM
        NEG
        A 48
        K4G 200
        RTN

; writehex(n, d) writes the last d hex digits of a word.
writehex: LP4
        JEQ0 hexend
        S1
        SP4
        L2              ; A := n shifted right by 4 times P!4
        LSH
        LP3
        XCH
        RSH
        L 15
        AND
        SP5
        L 10
        JLS hexdig
        LP5
        A 7             ; 10 is A
        SP5
hexdig: LP5
        A 48
        K6G 200
        J writehex
hexend: RTN

; getvec(u) takes a vector with the words 0 to u. A := its address, or 0 if there is no room.
getvec: SP4
        L1
        SP3
        SYS
        XCH
        SG 239
        XCH
        RTN

; freevec(v) gives it back.
freevec: SP4
        L2
        SP3
        SYS
        XCH
        SG 239
        XCH
        RTN

; newvec(u) takes a vector as getvec does, and notes it for freevecs: the word before it
; is the link of the list.
newvec: A1
        K4G 206
        JEQ0 newend
        LG 248
        XCH
        ST
        SG 248
        A1
newend: RTN

; freevecs() gives all vectors of newvec back.
freevecs: LG 248
        JEQ0 freend
        SP4
        RV
        SG 248
        LP4
        K5G 207
        J freevecs
freend: RTN

; compare(s, t): A := -1, 0 or 1: the string s comes before t, is t, or comes after it.
compare: L0
        GBYT
        SP5
        LP4
        L0
        GBYT
        SP6
        L0
        SP7
comp1:  LP7
        LP5
        JEQ comp2
        LP7
        LP6
        JEQ comp3
        LP7
        A1
        SP7
        LP4
        LP7
        GBYT
        SP8
        LP3
        LP7
        GBYT
        LP8
        JEQ comp1
        JLS comp4
comp3:  L1
        RTN
comp2:  LP7
        LP6
        JNE comp4
        L0
        RTN
comp4:  LM1
        RTN

; copystring(s, t): the string at t becomes that at s. A := t.
copystring: L0
        GBYT
        SP5
copy1:  LP3
        LP5
        GBYT
        ATC
        LP4
        LP5
        PBYT
        LP5
        S1
        SP5
        JGE0 copy1
        LP4
        RTN

; sendpkt(p) sends a packet and waits until it is back. A := its first result, and global
; 239 its second one; A := 0, and global 239 the code, if the kernel refuses to send it.
sendpkt: SP4
        SP7
        L 11
        SP3
        SYS
        XCH             ; A := 0, or the code of the refusal
        SG 239
        JNE0 refuse
        L10             ; taskwait()
        SP3
        SYS
        LP7
        A4
        RV
        SG 239
        LP7
        RV3
        RTN
refuse: L0
        RTN

; delay(t) sleeps for t ticks.
delay:  SG 245
        LM1
        SG 241
        K4G 222
        RTN

; ask() sends the packet of the library.
ask:    LM1
        SG 240
        LLG 240
        K4G 212
        RTN

; request(type, a, b, c) asks the file handler. A := the answer; 0 if it is refused.
request: SG 242
        L4
        SG 241
        LP4
        SG 245
        LP5
        SG 246
        LP6
        SG 247
        K7G 222
        LG 239
        JNE0 refuse
        XCH
        RTN

; findinput(name) and findoutput(name) open a file. A := the stream, or 0.
findinput: SP 9
        L10
        K5G 214
        RTN
findoutput: SP 9
        L 11
        K5G 214
        RTN

; readbytes(stream, buffer, n): A := how many bytes came, 0 at the end.
readbytes: L 12
        SP6
        J bytes
; writebytes(stream, buffer, n): A := n.
writebytes: L 13
        SP6
bytes:  LP3             ; request(P!6, stream, buffer, n)
        SP 11
        LP4
        SP 12
        LP5
        SP 13
        LP6
        K7G 214
        RTN

; endstream(stream) closes it.
endstream: SP 9
        L 14
        K5G 214
        RTN

; readline(buffer, n) reads a line of the console. A := how many bytes it has.
readline: SG 245
        LP4
        SG 246
        L1
        SG 242
        L3
        SG 241
        K5G 222
        RTN
