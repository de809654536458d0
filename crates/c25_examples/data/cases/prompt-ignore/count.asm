        .bss    SUM,1
        .text
START   LDPK    SUM
        LARK    AR1,2
        LARP    AR1
        ZAC
LOOP    CALL    MORE
        BANZ    LOOP,*-
DONE    B       DONE
MORE    ADDK    5
        SACL    SUM
        RET
