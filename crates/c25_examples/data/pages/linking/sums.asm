* Sums of four samples of port 0, to port 1, by a loop that runs in block B0.
        .def    SUM,LOADED
N       .set    4
        .bss    X,1
        LRLK    AR1,SUM-0FD00h  ; FF00h is 200h of data memory
        LARP    AR1
        RPTK    END-LOADED-1    ; one less than the words
        BLKP    LOADED,*+       ; from where they are loaded
        CNFP                    ; B0 is program memory
        LDPK    X
BLOCK   CALL    SUM             ; to where it runs
        SACL    X
        OUT     X,PA1
        B       BLOCK
        .sect   "fast"
        .label  LOADED
SUM     LARK    AR1,N-1
        ZAC
NEXT    IN      X,PA0
        ADD     X
        BANZ    NEXT            ; in B0, where it runs
        RET
        .label  END
