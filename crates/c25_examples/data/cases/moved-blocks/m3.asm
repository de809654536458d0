        .bss    K3,60,1
        LDPK    K3
