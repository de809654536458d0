        .copy   "gain.inc"
        LACK    GAIN
        SACL    60h
        OUT     60h,PA0
