; Takes vectors and gives them back; one is too large.

GLOBAL 1 main


main:   L 9
        K8G 206         ; getvec
        SP5
        K8G 207         ; freevec
        LP5
        K8G 207         ; the same once more is refused
        LG 239
        K8G 203
        K8G 201
        LW 1000000
        K8G 206
        K8G 203         ; 0
        K8G 201
        LG 239
        K8G 203         ; 1: no room
        K8G 201
        L 9
        K8G 208         ; newvec
        SP5
        L 9
        K8G 208
        LP5             ; the words from one to the next: 12 words a block
        SUB
        K8G 203
        K8G 201
        K8G 209         ; freevecs
        LG 248
        K8G 203
        K8G 201
        L 9
        K8G 208
        LP5             ; the next one lies where the first one was
        SUB
        K8G 203
        K8G 201
        RTN
