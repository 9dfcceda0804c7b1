; The text as a string: kernel

GLOBAL 50 text          ; {text}
        ALIGN 4
text:   DB 6
        DB 107
        DB 101
        DB 114
        DB 110
        DB 101
        DB 108
