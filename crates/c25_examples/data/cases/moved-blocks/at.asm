        .bss    A,100,1
        .bss    B,100,1
        LDPK    B
