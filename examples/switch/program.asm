; Writes a letter for each value of a list: for 0, 1 and 2 by a switch with a
; label for each of them, for other values by a switch that looks for a key.

        J start

; The list ends with a value below 0. 65541 is not 5, though its lower half is.
        ALIGN 4
values: DW 0
        DW 1
        DW 2
        DW 3
        DW 5
        DW 10
        DW 50
        DW 100
        DW 500
        DW 1000
        DW 65541
        DW -1

start:  L 19            ; P!3 := 19, the call that writes a character
        SP3
        LLL values      ; P!5 := the address of the next value
        SP5

next:   LP5
        RV              ; A := the value
        JLS0 done

; SWL takes label number A, and the default where there are not so many.
        SWL
        ALIGN 2
        DH 3            ; three labels
        RES keyed       ; the default
        RES zero
        RES one
        RES two
zero:   L 122           ; z
        J write
one:    L 111           ; o
        J write
two:    L 116           ; t
        J write

; SWB compares A with the key of pair 1, then, where A is below the key of pair
; i, with that of pair 2i, and where it is above, with that of pair 2i + 1. So
; the pairs are a tree: 100 at the root, 10 and 1000 below it, then 5 and 50
; below 10, and 500 below 1000.
keyed:  SWB
        ALIGN 2
        DH 6            ; six pairs of a key and a label
        RES other       ; the default
        DH 100          ; pair 1
        RES hundred
        DH 10           ; pair 2
        RES ten
        DH 1000         ; pair 3
        RES thousand
        DH 5            ; pair 4
        RES five
        DH 50           ; pair 5
        RES fifty
        DH 500          ; pair 6
        RES fivehundred
five:   L 86            ; V
        J write
ten:    L 88            ; X
        J write
fifty:  L 76            ; L
        J write
hundred: L 67           ; C
        J write
fivehundred: L 68       ; D
        J write
thousand: L 77          ; M
        J write
other:  L 45            ; -

write:  SP4
        SYS
        LP5             ; on to the next value
        A1
        SP5
        J next

done:   L10             ; write a line feed, which is 10
        SP4
        SYS
        L0              ; call 0: stop with 0
        SP3
        SP4
        SYS

; Try this: add the key 5000 with a letter of its own. Mind where its pair comes in
; the tree.
