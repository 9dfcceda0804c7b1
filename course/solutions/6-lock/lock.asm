; A lock, which is task 5. A request of type 1 takes it, and one of type 2 gives it back.
; The packet of a take comes back when its sender has the lock. While others wait, the
; one that has it has a priority above theirs.
;
; Global 10 is the task that has the lock, or 0, and global 11 its own priority. The
; packets that wait are a list, linked by their words 3: global 12 is the first one,
; or 0, and global 13 the last one.

GLOBAL 1 start
GLOBAL 30 grant
GLOBAL 31 answer
GLOBAL 32 raise
GLOBAL 33 change
GLOBAL 34 priority

start:  L10             ; taskwait(): P!5 := the next packet
        SP3
        SYS
        SP5
        RV2             ; its type
        S1
        JEQ0 take

        LP5             ; a give, of the one that has the lock?
        RV1
        LG 10
        JNE no
        LG 11           ; it gets its own priority again
        K8G 33
        LP5
        K8G 31
        L0              ; nobody has the lock
        SG 10
        LG 12           ; if one waits, it gets it
        JEQ0 start
        SP5
        RV3
        SG 12
        LP5
        K8G 30
        K8G 32
        J start

take:   LG 10           ; if nobody has the lock, the sender gets it
        JNE0 wait
        LP5
        K8G 30
        J start
wait:   L0              ; else the packet is the last one that waits
        LP5
        ST3
        LP5
        LG 12
        JNE0 after
        LP5
        SG 12
        J last
after: LP5
        LG 13
        ST3
last:   LP5
        SG 13
        K8G 32
        J start

no:     L 80            ; {code}: the second result of the refusal
        LP5             ; is its word 4
        A1
        ST3
        LM1             ; the first one
        LP5
        ST3
        LP5
        SP4
        L 11
        SP3
        SYS
        J start

; The sender of the packet in A has the lock.
grant:  RV1
        SG 10
        K8G 34
        SG 11
        LP3
        K8G 31
        RTN

; Sends the packet in A back, with the results 0.
answer: L0
        XCH
        ST3
        A1
        ST3
        S1
        SP4
        L 11
        SP3
        SYS
        RTN

; The one that has the lock gets a priority above those of all that wait.
raise:  LG 12           ; P!5 := the next packet that waits
each:   SP5
        JEQ0 done
        RV1             ; P!6 := the priority that is 1 above its sender's
        K8G 34
        A1
        SP6
        LG 10
        K8G 34
        LP6             ; B := that of the one that has the lock, A := P!6
        JGE next
        K8G 33
next:   LP5
        RV3
        J each
done:   RTN

; The task that has the lock gets the priority in A: changepri(G!10, A).
change: SP5
        LG 10
        SP4
        L5
        SP3
        SYS
        RTN

; A := the priority of the task in A: its task block is in word 120 + A.
priority: A 120
        RV
        RV2
        RTN
