        .bss    K5,60,1
        LDPK    K5
