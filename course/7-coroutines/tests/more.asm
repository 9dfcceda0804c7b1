; The text as a string: a***b****c*

GLOBAL 50 text          ; {text}
        ALIGN 4
text:   DB 11
        DB 97
        DB 42
        DB 42
        DB 42
        DB 98
        DB 42
        DB 42
        DB 42
        DB 42
        DB 99
        DB 42
        DB 42           ; a star after the text
