        .bss    U,100
        .bss    V,100,1
        LDPK    V
