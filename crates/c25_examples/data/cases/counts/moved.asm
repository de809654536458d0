        LRLK    AR1,200h        ; block B0
        LARP    AR1
        RPTK    6
        BLKP    LOADED,*+
        CNFP
        B       RUNS
        .sect   "fast"
        .label  LOADED
RUNS    LARK    AR2,2
        LARP    AR2
AGAIN   NOP
        BANZ    AGAIN,*-        ; counts where it runs, in block B0
END     B       END
