; A library of strings. A string is a byte with the number of its characters, and
; then the characters; s and t are the word addresses where strings begin. The first
; argument is in A and in P!3, the second one in P!4.

GLOBAL 30 length        ; {length}
GLOBAL 31 compare       ; {compare}
GLOBAL 32 copy          ; {copy}
GLOBAL 33 find          ; {find}

; A := how many characters s has.
length: RTN

; A := -1, 0 or 1: s comes before t, is t, or comes after t.
compare: RTN

; t becomes s. A := t.
copy:   RTN

; A := the place of the first character ch in s, counted from 1; 0 if there is none.
find:   RTN
