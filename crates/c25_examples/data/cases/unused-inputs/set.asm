        LDPK    0
        LACK    7
        SACL    4               ; IMR, but no EINT
WAIT    B       WAIT
