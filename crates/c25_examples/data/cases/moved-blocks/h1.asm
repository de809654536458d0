        .bss    K1,60,1
        .bss    HOLE1,68
        LDPK    K1
