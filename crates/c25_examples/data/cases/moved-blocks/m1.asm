        .bss    K1,60,1
        LDPK    K1
