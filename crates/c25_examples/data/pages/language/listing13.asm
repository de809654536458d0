        .mmregs
        LDPK    0
        LACK    1
        SACL    IMR
