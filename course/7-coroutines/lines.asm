; Writes a text in lines of 8 characters. A coroutine, the producer, hands on the
; characters of the text, one at a time, and 0 after the last one; two stars are one
; character, a #. Another one, the consumer, makes lines of what it gets.

GLOBAL 1 start
start:  LF produce      ; global 10 := createco(produce, 60), the producer
        SP4
        L 60
        SP5
        L 14
        SP3
        SYS
        SG 10
                        ; here the consumer is to be made and called
        RTN

; The function of the producer.
produce: LG 50          ; {text}: P!6 := the word address of the text
        L2
        RSH
        SP6
        L0              ; nothing is handed on yet
        RTN
