        .bss    A,100,1
        .bss    HOLE1,28        ; up to the end of the page
        .bss    B,100,1
        .bss    HOLE2,28
        .bss    C,100,1
        LDPK    C
