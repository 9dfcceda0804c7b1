; Computes 3 factorial, and stops with it. The dump shows what the calls leave.
;
; P is 100 at first. K8 calls the function at A in a frame at P+8, word 108, and
; K4 in frames at P+4, words 112, 116 and 120. A frame has the caller's P, the
; address to return to, the function and the argument. The last argument is 0,
; and a dump leaves out the words that are 0. Word 104 is the argument of the
; call that stops the machine, and from word 200 on is the program.

        L3              ; A := 3 factorial
        LF fact
        K8
        SP4             ; call 0: stop with it
        L0
        SP3
        SYS

fact:   JNE0 more       ; 0 factorial is 1
        L1
        RTN
more:   S1              ; n factorial is n times the factorial of n - 1
        LF fact
        K4
        LP3             ; B := that factorial, A := n
        MUL
        RTN

; Try this: use K8 for the inner calls too, and see where the frames are then.
