; Sleeps for ten ticks, and sends a packet that the kernel refuses.

GLOBAL 1 main


main:   L 108           ; P!5 := the tick
        RV
        SP5
        L 10
        K8G 213         ; delay
        L 108
        RV
        LP5
        SUB
        K8G 203         ; how many ticks have gone
        K8G 201
        L 0             ; sendpkt(0)
        K8G 212
        K8G 203
        K8G 201
        LG 239
        K8G 203
        K8G 201
        RTN
