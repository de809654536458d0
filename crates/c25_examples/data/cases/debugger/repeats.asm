* Copies four words, which one instruction does in a repeat.
        LRLK    AR1,300h
        LARP    AR1
        RPTK    3
        BLKP    TABLE,*+
STOP    B       STOP
TABLE   .word   1,2,3,4
