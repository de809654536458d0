        .bss    D,60,1
        .copy   "table.inc"
        LDPK    D
