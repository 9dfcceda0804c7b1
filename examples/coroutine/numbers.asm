; A coroutine that yields the numbers of Fibonacci, one at a time. The root of
; the task calls it for each, and writes the digit.

GLOBAL 1 start
start:  LF numbers      ; createco(numbers, 30)
        SP4
        L 30
        SP5
        L 14
        SP3
        SYS
        SG 10           ; global 10 := the coroutine

next:   LG 10           ; callco(the coroutine, 0)
        SP4
        L0
        SP5
        L 16
        SP3
        SYS
        SG 11           ; global 11 := the number that it yields
        A 48            ; wrch(its digit)
        SP4
        L 19
        SP3
        SYS
        LG 11           ; again, if it was not 8
        L8
        JNE next

        L0              ; quit(0)
        SP3
        SP4
        SYS

; The coroutine has a stack of its own. In its words 6 and 7 it keeps this number
; and the next one, also while the root runs.
numbers: L1
        SP6
        SP7
yield:  LP6             ; cowait(this number)
        SP4
        L 18
        SP3
        SYS
        LP6             ; A := this number and the next one
        AP7
        LP7             ; this number := the next one
        SP6
        XCH             ; the next one := A
        SP7
        J yield

; Try this: call the coroutine with a number, and let it begin anew when that is
; not 0. A is that number when it goes on.
