        LDPK    0
        LACK    1
        SACL    4
        EINT
WAIT    B       WAIT
