; Makes files with names of one letter, from A on, until there are 64 files.

GLOBAL 1 start
start:  LM1             ; the packet is globals 20 to 27: its link is -1,
        SG 20
        L4              ; and it goes to task 4
        SG 21
        L 65            ; P!5 := the letter
        SP5
next:   ATC             ; the name := it
        LLL name
        L1
        PBYT
        LLL name        ; opens the file to write
        SG 25
        L 11
        SG 22
        LLG 20
        SP4
        L 11
        SP3
        SYS
        L10
        SP3
        SYS
        LG 24           ; with a code but 0 there are 64
        JNE0 full
        LG 23           ; closes it
        SG 25
        L 14
        SG 22
        LLG 20
        SP4
        L 11
        SP3
        SYS
        L10
        SP3
        SYS
        LP5
        A1
        SP5
        L 91            ; after Z comes a
        JNE on
        L 97
        J set
on:     XCH
set:    SP5
        L 123           ; and after z come digits
        JNE more
        L 48
        SP5
more:   LP5
        J next
full:   RTN

        ALIGN 4
name:   DB 1
        DB 65
