        .bss    U,100
        .bss    V,100,1         ; all of V in one page
        LDPK    V
        LAC     V
        SACL    V+99            ; the same page
