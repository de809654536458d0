        .bss    X,2
        .text
        LDPK    X
        LARK    AR1,1
        LARP    AR1
NEXT    IN      X,PA0
        LAC     X
        ADDK    1
        SACL    X+1
        OUT     X+1,PA1
        BANZ    NEXT,*-
DONE    B       DONE
