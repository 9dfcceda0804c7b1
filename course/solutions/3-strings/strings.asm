; A library of strings. A string is a byte with the number of its characters, and
; then the characters; s and t are the word addresses where strings begin. The first
; argument is in A and in P!3, the second one in P!4.

GLOBAL 30 length        ; {length}
GLOBAL 31 compare       ; {compare}
GLOBAL 32 copy          ; {copy}
GLOBAL 33 find          ; {find}

; A := how many characters s has.
length: L0              ; its byte 0
        GBYT
        RTN

; A := -1, 0 or 1: s comes before t, is t, or comes after t. P!5 and P!6 are the
; lengths, and P!7 is how many characters are the same so far.
compare: L0
        GBYT
        SP5
        LP4
        L0
        GBYT
        SP6
        L0
        SP7
same:   LP7             ; s has no more characters
        LP5
        JEQ ends
        LP7             ; t has no more characters
        LP6
        JEQ after
        LP7             ; the next character of each
        A1
        SP7
        LP4
        LP7
        GBYT
        SP8             ; P!8 := that of t
        LP3
        LP7
        GBYT
        LP8             ; B := that of s, A := that of t
        JEQ same
        JLS before
after: L1
        RTN
ends:   LP7             ; equal, if t has no more characters either
        LP6
        JNE before
        L0
        RTN
before: LM1
        RTN

; t becomes s. A := t. P!5 is the number of the byte to be copied, from the last one
; down to that of the length.
copy:   L0
        GBYT
        SP5
byte:   LP3             ; C := byte P!5 of s
        LP5
        GBYT
        ATC
        LP4             ; byte P!5 of t := C
        LP5
        PBYT
        LP5
        S1
        SP5
        JGE0 byte
        LP4
        RTN

; A := the place of the first character ch in s, counted from 1; 0 if there is none.
; P!5 is the length of s, and P!6 the place.
find:   L0
        GBYT
        SP5
        L0
        SP6
look:   LP6
        LP5
        JEQ none
        LP6
        A1
        SP6
        LP3
        LP6
        GBYT
        LP4             ; B := the character, A := ch
        JNE look
        LP6
        RTN
none:   L0
        RTN
