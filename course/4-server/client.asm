; Adds its own number to the sum of the server, task 6, three times. After each time it
; writes a letter for the answer: A for 1, B for 2, and so on.
;
; The packet is globals 20 to 25: link, destination, type, two results, argument.

GLOBAL 1 start
start:  L 102           ; global 25, the argument := the number of the task
        RV
        RV1
        SG 25
        RTN
