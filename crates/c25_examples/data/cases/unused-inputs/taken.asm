        B       START
        B       COUNT           ; INT0
START   LACK    1
        LDPK    0
        SACL    4
        EINT
WAIT    B       WAIT
COUNT   OUT     4,PA0
        EINT
        RET
