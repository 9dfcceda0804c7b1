; Divides 7 by 0, which is fault 5.

GLOBAL 1 start
start:  L7
        L0
        DIV
        RTN
