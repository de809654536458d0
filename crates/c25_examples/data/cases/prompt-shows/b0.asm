        LRLK    AR1,200h
        LARP    AR1
        RPTK    1
        BLKP    LOADED,*+       ; two words of three
        CNFP
        B       RUN
        .sect   "fast"
        .label  LOADED
RUN     LACK    9
        SACL    60h
        RET
