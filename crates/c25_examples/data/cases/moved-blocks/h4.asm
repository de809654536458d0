        .bss    K4,60,1
        .bss    HOLE4,68
        LDPK    K4
