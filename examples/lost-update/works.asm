; Task 5: adds 1 to word 190, six times, and works for a while before each.

GLOBAL 1 start
start:  L6              ; P!5 := how many are left
        SP5
next:   L 30            ; works: 30 turns of two steps
work:   S1
        JGR0 work
        K8G 40          ; adds 1
        LP5
        S1
        SP5
        JNE0 next
        RTN
