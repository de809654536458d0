        .bss    A,40,1
        .bss    B,8
        LDPK    A
