* Each sample of port 0 plus GAIN times the one before, to port 1.
        .bss    NOW,1
        .bss    BEFORE,1
        .bss    GAIN,1
        .bss    SUM,1
        LDPK    NOW
        ZAC
        SACL    BEFORE
        LACK    3
        SACL    GAIN
LOOP    IN      NOW,PA0
        LT      BEFORE
        MPY     GAIN
        PAC
        ADD     NOW
        SACL    SUM
        OUT     SUM,PA1
        DMOV    BEFORE          ; (wrong, as is seen below)
        DMOV    NOW
        B       LOOP
