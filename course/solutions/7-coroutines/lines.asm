; Writes a text in lines of 8 characters. A coroutine, the producer, hands on the
; characters of the text, one at a time, and 0 after the last one; two stars are one
; character, a #. Another one, the consumer, makes lines of what it gets.

GLOBAL 1 start
start:  LF produce      ; global 10 := createco(produce, 60), the producer
        SP4
        L 60
        SP5
        L 14
        SP3
        SYS
        SG 10
        LF consume      ; callco(createco(consume, 60), 0): the consumer
        SP4
        L 14
        SP3
        SYS
        SP4
        L0
        SP5
        L 16
        SP3
        SYS
        RTN

; The function of the producer. P!6 is the word address of the text, P!7 its length,
; and P!8 the number of characters that were taken from it.
produce: LG 50          ; {text}: P!6 := the word address of the text
        L2
        RSH
        SP6
        L0
        GBYT
        SP7
        L0
        SP8
next:   LP8             ; after the last character comes 0
        LP7
        JEQ end
        LP8             ; P!9 := the next character
        A1
        SP8
        LP6
        LP8
        GBYT
        SP9
        L 42            ; is it a star,
        JNE hand
        LP8             ; and not the last character,
        LP7
        JEQ hand
        LP6             ; with another star after it?
        LP8
        A1
        GBYT
        L 42
        JNE hand
        LP8             ; then both are one
        A1
        SP8
        L 35            ; {power}
        SP9
hand:   LP9             ; cowait(the character)
        SP4
        L 18
        SP3
        SYS
        J next
end:    L0              ; cowait(0)
        SP4
        L 18
        SP3
        SYS
        J end

; The function of the consumer. P!6 is how many characters its line has.
consume: L0
        SP6
more:   LG 10           ; A := callco(the producer, 0)
        SP4
        L0
        SP5
        L 16
        SP3
        SYS
        JEQ0 last
        SP4             ; wrch(it)
        L 19
        SP3
        SYS
        LP6
        A1
        SP6
        L8              ; is the line full?
        JNE more
        LF line
        K8
        J consume
last:   LP6             ; the last line ends if it has a character
        JEQ0 done
        LF line
        K8
done:   RTN

; Writes a line end.
line:   L10
        SP4
        L 19
        SP3
        SYS
        RTN
