        CNFP
        LALK    1234h
        LDPK    4
        SACL    0
        CNFD
        SACL    0
        CNFP
        CNFD
