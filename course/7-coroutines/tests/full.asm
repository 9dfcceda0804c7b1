; The text as a string: abcdefghijklmnop

GLOBAL 50 text          ; {text}
        ALIGN 4
text:   DB 16
        DB 97
        DB 98
        DB 99
        DB 100
        DB 101
        DB 102
        DB 103
        DB 104
        DB 105
        DB 106
        DB 107
        DB 108
        DB 109
        DB 110
        DB 111
        DB 112
