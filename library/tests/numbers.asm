; Writes characters, a string, and numbers in decimal and hex.

GLOBAL 1 main

        ALIGN 4
text:   DB 6
        DB 110
        DB 117
        DB 109
        DB 98
        DB 101
        DB 114

main:   L 65
        K8G 200         ; wrch
        K8G 201
        LLL text
        K8G 202         ; writes
        K8G 201
        LW 0
        K8G 203         ; writen
        K8G 201
        LW 7
        K8G 203         ; writen
        K8G 201
        LW -45
        K8G 203         ; writen
        K8G 201
        LW 2147483647
        K8G 203         ; writen
        K8G 201
        LW -2147483648
        K8G 203         ; writen
        K8G 201
        LW 4
        SP 12
        LW 5
        K8G 204         ; writed
        K8G 201
        LW 4
        SP 12
        LW -5
        K8G 204         ; writed
        K8G 201
        LW 4
        SP 12
        LW 12345
        K8G 204         ; writed
        K8G 201
        LW 0
        SP 12
        LW -7
        K8G 204         ; writed
        K8G 201
        L8
        SP 12
        LW 48879
        K8G 205         ; writehex
        K8G 201
        L8
        SP 12
        LW -1
        K8G 205
        K8G 201
        L1
        SP 12
        LW 165
        K8G 205
        K8G 201
        L0
        SP 12
        LW 1
        K8G 205
        K8G 201
        RTN
