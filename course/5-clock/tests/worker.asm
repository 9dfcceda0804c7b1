; A worker: it counts, and never ends by itself.

GLOBAL 1 start
start:  LG 10
        A1
        SG 10
        J start
