        .bss    COUNT,1
        .bss    TABLE,16
DELAY   .usect  "delay",4
        LDPK    COUNT
        LAC     COUNT
        SACL    TABLE+1
        LRLK    AR1,DELAY+3
