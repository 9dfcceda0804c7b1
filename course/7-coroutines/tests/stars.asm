; The text as a string: 2**3

GLOBAL 50 text          ; {text}
        ALIGN 4
text:   DB 4
        DB 50
        DB 42
        DB 42
        DB 51
