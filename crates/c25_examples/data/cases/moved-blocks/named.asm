N       .set    100
HOLE1   .set    5
        .bss    A,N,1
        .bss    B,N,1
        .copy   "more.inc"
        LDPK    C
