        B       START
        .word   0
START   LACK    1
        LDPK    0
        SACL    4               ; IMR: INT0
        EINT
HERE    B       HERE
