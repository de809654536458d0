        .copy   "near.inc"
        LACK    NEAR
        SACL    60h
        OUT     60h,PA0
