; Asks for a line, and writes how long it is, and its first character.

GLOBAL 1 main


main:   LLG 100         ; readline
        SP5
        L 80
        SP 12
        LP5
        K8G 220
        K8G 203
        K8G 201
        LP5
        L0
        GBYT
        K8G 200
        K8G 201
        RTN
