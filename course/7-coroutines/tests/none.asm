; The text as a string: no characters

GLOBAL 50 text          ; {text}
        ALIGN 4
text:   DB 0
