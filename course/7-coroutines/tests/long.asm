; The text as a string: TRIPOS was written in BCPL at Cambridge

GLOBAL 50 text          ; {text}
        ALIGN 4
text:   DB 39
        DB 84
        DB 82
        DB 73
        DB 80
        DB 79
        DB 83
        DB 32
        DB 119
        DB 97
        DB 115
        DB 32
        DB 119
        DB 114
        DB 105
        DB 116
        DB 116
        DB 101
        DB 110
        DB 32
        DB 105
        DB 110
        DB 32
        DB 66
        DB 67
        DB 80
        DB 76
        DB 32
        DB 97
        DB 116
        DB 32
        DB 67
        DB 97
        DB 109
        DB 98
        DB 114
        DB 105
        DB 100
        DB 103
        DB 101
