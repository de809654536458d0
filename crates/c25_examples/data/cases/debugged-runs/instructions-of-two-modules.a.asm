* A field of 7 bits, one of 9 and whole words count from names of the other module.
        .global T,V,N
        LAC     T
        LDPK    V
        BANZ    T
        .word   T+2,V-1,N
