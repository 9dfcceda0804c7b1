; An account, which is a server. Global 10 is its balance. A packet of
;
;   type 1  pays in what its word 5 says;
;   type 2  moves what its word 5 says to the account whose number is its word 6;
;   type 3  asks for the balance.
;
; It goes back with the balance as the first result, and 0 as the second.
;
; To move, an account sends a packet of its own, globals 20 to 25, to the other one, and
; waits until that is back. What comes meanwhile is served at once, so that no account waits
; for this one while this one waits for it. Only requests to move are put aside, since
; these need the packet: in a list that is linked by their words 3, of which global 12 is
; the first one, or 0.

GLOBAL 1 start
start:  L 100           ; {begin}: the balance
        SG 10
        LM1             ; the link of its own packet
        SG 20

next:   LG 12           ; P!5 := a request that was put aside,
        JEQ0 take
        SP5
        RV3
        SG 12
        J treat
take:   L10             ; or the next one: taskwait()
        SP3
        SYS
        SP5
treat:  LP5
        RV2
        L2
        JEQ move
        LP5
        LF serve
        K8
        J next

move:   LG 10           ; takes it from the balance
        LP5
        RV5
        SUB
        SG 10
        L 5             ; {books}: and writes it into the books: so many turns of two steps
books:  S1
        JGR0 books
        L1              ; pays it in at the other one
        SG 22
        LP5
        RV6
        SG 21
        LP5
        RV5
        SG 25
        LLG 20          ; qpkt(its own packet)
        SP4
        L 11
        SP3
        SYS
wait:   L10             ; P!6 := taskwait()
        SP3
        SYS
        SP6
        LLG 20
        JEQ moved       ; it is back
        LP6             ; a request to move is put aside,
        RV2
        L2
        JEQ aside
        LP6             ; and any other one served
        LF serve
        K8
        J wait
aside:  LG 12
        LP6
        ST3
        LP6
        SG 12
        J wait
moved:  LP5
        LF answer
        K8
        J next

; Serves the packet in A, which is of type 1 or 3.
serve:  RV2
        L1
        JNE asks
        LP3
        RV5
        AG 10
        SG 10
asks:   LP3

; Sends the packet in A back, with the balance.
answer: SP5
        LG 10
        LP5
        ST3
        A1
        SP6
        L0
        LP6
        ST3
        LP5             ; qpkt(packet)
        SP4
        L 11
        SP3
        SYS
        RTN
