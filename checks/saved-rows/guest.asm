; The guest of cases/saved/kernel: it has two coroutines, a block of its own, a task that it has made and held, packets at the clock and
; at that task, and a stream and a pipe that are open. Then it waits, in a coroutine. The session is that of
;     ./session shell -d -v 2 -t 20 -s 8192 315 task 5 100 50 guest.asm file NOTE note file LONG long \
;         type 300 'TYPE LONG' type 300 EX type 300 STATUS type 900 MAP type 1900 FINISH
GLOBAL 1 start
start:  LF work         ; createco(work, 30), twice
        SP4
        L 30
        SP5
        L 14
        SP3
        SYS
        SG 10
        LF work
        SP4
        L 30
        SP5
        L 14
        SP3
        SYS
        SP4             ; callco(the second one, 0)
        L0
        SP5
        L 16
        SP3
        SYS
        RTN

work:   L 9             ; getvec(9)
        SP4
        L1
        SP3
        SYS
        SG 12
        LLG 0           ; createtask(this module, 40, 90)
        S 20
        RV
        SP4
        L 40
        SP5
        L 90
        SP6
        L3
        SP3
        SYS
        SP4             ; hold(that task)
        L8
        SP3
        SYS
        LM1             ; two packets to the clock
        SG 20
        SG 30
        SG 21
        SG 31
        L 100
        SG 25
        L 90
        SG 35
        LLG 20
        SP4
        L 11
        SP3
        SYS
        LLG 30
        SP4
        L 11
        SP3
        SYS
        LM1             ; and one to task 6
        SG 40
        L6
        SG 41
        LLG 40
        SP4
        L 11
        SP3
        SYS
        LM1             ; opens the file NOTE
        SG 50
        L4
        SG 51
        LLL name
        SG 55
        L 10
        LF ask
        K8
        SG 13
        SG 55           ; reads 40 bytes of it
        LLG 100
        SG 56
        L 40
        SG 57
        L 12
        LF ask
        K8
        LLL name        ; opens the pipe NOTE to write
        SG 55
        L1
        SG 56
        L 20
        LF ask
        K8
        SG 55           ; and writes 5 bytes
        LLL name
        SG 56
        L5
        SG 57
        L 22
        LF ask
        K8
        L10             ; taskwait()
        SP3
        SYS
        RTN

ask:    SG 52
        LLG 50
        SP4
        L 11
        SP3
        SYS
        L10
        SP3
        SYS
        LG 53
        RTN

        ALIGN 4
name:   DB 4
        DB 78
        DB 79
        DB 84
        DB 69
