        .text
        ADD     60h             ; M mem[,shift]
        ADD     60h,4
        ADD     *+,4,AR2
        SACH    *+,1
        MPY     60h             ; M mem
        MPY     *0+,AR1
        LAR     AR2,60h         ; M ar,mem
        SAR     AR2,*-,AR3
        IN      60h,PA2         ; M mem,port
        OUT     *+,PA3,AR4
        BIT     60h,15          ; M mem,bit
        BIT     *,3,AR1
        MACD    TAB,*-          ; M word,mem
        BLKP    TAB,60h
        BLKD    0300h,*+,AR2
        B       LOOP            ; M word[,ind]
        BANZ    LOOP
        BANZ    LOOP,*-,AR1
LOOP    LACK    65              ; M k
        LDPK    511
        MPYK    -1
        LARK    AR3,7           ; M ar,k
        LRLK    AR3,0300h       ; M ar,word
        LALK    -2              ; M word[,shift]
        ADLK    TAB,4
        SPM     1               ; M k
        CMPR    2
        NORM                    ; NORM [ind]
        NORM    *-
        ZAC
        NOP
        LARP    AR4
TAB     .word   1,2
