; Copies the file note, and asks for one that is not there.

GLOBAL 1 main

        ALIGN 4
note:   DB 4
        DB 110
        DB 111
        DB 116
        DB 101
        ALIGN 4
copy:   DB 4
        DB 99
        DB 111
        DB 112
        DB 121
        ALIGN 4
nofile: DB 6
        DB 110
        DB 111
        DB 102
        DB 105
        DB 108
        DB 101

main:   LLL nofile
        K8G 215         ; findinput
        K8G 203
        K8G 201
        LG 239
        K8G 203
        K8G 201
        LLL note
        K8G 215         ; findinput
        SP5
        LLL copy
        K8G 216         ; findoutput
        SP6
more:   LLG 100         ; reads 10 bytes
        SP 12
        L 10
        SP 13
        LP5
        K8G 217
        JEQ0 end
        SP 13           ; and writes as many as came
        LLG 100
        SP 12
        LP6
        K8G 218
        K8G 203
        K8G 201
        J more
end:    LP5
        K8G 219         ; endstream
        LP6
        K8G 219
        LLL copy
        K8G 215
        SP5
        LLG 100
        SP 12
        L 100
        SP 13
        LP5
        K8G 217
        K8G 203         ; how many bytes the copy has
        K8G 201
        RTN
