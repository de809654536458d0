        .bss    K4,60,1
        LDPK    K4
