        .bss    A,100,1
        LDPK    A
