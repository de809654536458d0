        .bss    A,128,1
        .bss    F,1
        .bss    HOLE1,127
        .bss    B,128,1
        LDPK    B
