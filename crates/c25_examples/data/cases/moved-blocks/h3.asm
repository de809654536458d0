        .bss    K3,60,1
        .bss    HOLE3,68
        LDPK    K3
