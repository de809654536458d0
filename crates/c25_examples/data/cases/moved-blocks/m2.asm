        .bss    K2,60,1
        LDPK    K2
