; Computes 2 to the power of 10 by a function of two arguments, and stops with it.
;
; K8 calls the function in A with the argument in B, in a new frame at P+8. The
; first words of the frame are the caller's P, the address to return to, the
; function, and the first argument. The second argument is word 4 of the new
; frame, which is word 12 of the caller's: the caller puts it there before the call.

        L10             ; word 4 of the frame at P+8 := 10
        SP12
        L2              ; B := 2, the first argument
        LF power
        K8              ; A := power(2, 10)
        SP4             ; call 0: stop with it
        L0
        SP3
        SYS

; power(b, e) is b to the power of e: b is P!3, e is P!4, and P!5 is the product
; so far.
power:  L1              ; P!5 := 1
        SP5
again:  LP4             ; e times,
        JEQ0 done
        S1
        SP4
        LP5             ; P!5 := P!5 times b
        LP3
        MUL
        SP5
        J again
done:   LP5             ; the answer goes into A
        RTN

; Try this: let power call itself, with e - 1, in place of the loop.
