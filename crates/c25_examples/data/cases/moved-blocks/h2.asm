        .bss    K2,60,1
        .bss    HOLE2,68
        LDPK    K2
