; The text as a string: 1234567**89

GLOBAL 50 text          ; {text}
        ALIGN 4
text:   DB 11
        DB 49
        DB 50
        DB 51
        DB 52
        DB 53
        DB 54
        DB 55
        DB 42
        DB 42
        DB 56
        DB 57
