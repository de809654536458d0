        LACK    SCALE
        SACL    60h
        OUT     60h,PA0
        .if     LOUD
        OUT     60h,PA1
        .endif
