; Computes the mean of the numbers in a list, and divides by 0, since the list is
; empty. The run ends with fault 5, and the dump shows the store as it was.
;
; A fault stops the machine. The instruction that faults changes nothing, so the
; words of the dump are those from before it, and the closing line names the fault
; and its place: here 5, a division by zero, and the byte address of DIV. The
; debugger shows the registers: CONT goes up to the fault, and REGS writes them.

        L0              ; P!4 := 0, the sum
        SP4
        LLL list        ; P!5 := the address of the next number
        SP5
        LLL list        ; P!6 := how many there are, which is before them
        RV
        SP6
        SP7             ; P!7 := how many are left

next:   LP7             ; none left?
        JEQ0 mean
        S1
        SP7
        LP5             ; on to the next number
        A1
        SP5
        RV              ; add it to the sum
        AP4
        SP4
        J next

mean:   LP4             ; B := the sum, A := how many
        LP6
        DIV             ; fault 5 if there are none
        SP4             ; call 0: stop with the mean
        L0
        SP3
        SYS

        ALIGN 4
list:   DW 0            ; how many numbers follow

; Try this: give the list three numbers, and see the mean in the closing line.
