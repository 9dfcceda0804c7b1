; Compares strings, and copies one.

GLOBAL 1 main

        ALIGN 4
ab:     DB 2
        DB 97
        DB 98
        ALIGN 4
abc:    DB 3
        DB 97
        DB 98
        DB 99
        ALIGN 4
b:      DB 1
        DB 98
        ALIGN 4
none:   DB 0
        ALIGN 4
to:     DW 0
        DW 0

main:   LLL ab
        SP 12
        LLL ab
        K8G 210         ; compare
        K8G 203
        K8G 201
        LLL abc
        SP 12
        LLL ab
        K8G 210         ; compare
        K8G 203
        K8G 201
        LLL ab
        SP 12
        LLL abc
        K8G 210         ; compare
        K8G 203
        K8G 201
        LLL b
        SP 12
        LLL abc
        K8G 210         ; compare
        K8G 203
        K8G 201
        LLL abc
        SP 12
        LLL b
        K8G 210         ; compare
        K8G 203
        K8G 201
        LLL none
        SP 12
        LLL none
        K8G 210         ; compare
        K8G 203
        K8G 201
        LLL to
        SP 12
        LLL abc
        K8G 211         ; copystring
        K8G 202         ; writes what it answers
        K8G 201
        RTN
