        .sect   "fast"
        .label  LOADED
ENTER   LACK    9
        RET
        .label  END
        .text
        RPTK    END-LOADED-1    ; one less than the words
        BLKP    LOADED,*+       ; where they are loaded
        CALL    ENTER           ; where they run
