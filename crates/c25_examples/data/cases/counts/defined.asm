        LACK    N
        .if     LOUD
        OUT     60h,PA0
        .endif
        NOP
