; Jumps over a table of 160 bytes, which is too far for J.
;
; A relative operand is one byte, so J reaches 128 bytes back and 127 ahead. J$
; goes through a halfword nearby, which RES reserves and which leads up to 32,767
; bytes away. The label in J$ is that of the RES line, and RES names the target.
; The RES line is after the J$, where no instruction runs into it.

        J$ over
over:   RES start

        ALIGN 4
squares: DW 0           ; the squares of 0 to 39
        DW 1
        DW 4
        DW 9
        DW 16
        DW 25
        DW 36
        DW 49
        DW 64
        DW 81
        DW 100
        DW 121
        DW 144
        DW 169
        DW 196
        DW 225
        DW 256
        DW 289
        DW 324
        DW 361
        DW 400
        DW 441
        DW 484
        DW 529
        DW 576
        DW 625
        DW 676
        DW 729
        DW 784
        DW 841
        DW 900
        DW 961
        DW 1024
        DW 1089
        DW 1156
        DW 1225
        DW 1296
        DW 1369
        DW 1444
        DW 1521

; LLL$ loads the word address of the table in the same way: squares is too far
; back for LLL.
start:  L 31            ; B := 31
        LLL$ table      ; A := the table
        ADD             ; A := the address of word 31 of the table
        RV              ; A := 31 times 31
        SP4             ; call 0: stop with it
        L0
        SP3
        SYS
table:  RES squares

; Try this: write J in place of J$ and start in place of over, and see what the
; assembler says.
