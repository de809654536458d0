        .bss    A,100,1
        .bss    B,100,1
        .bss    C,100,1
        LDPK    C
