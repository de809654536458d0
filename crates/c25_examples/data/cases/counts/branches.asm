        .ref    SIGN
        LDPK    0
        LARP    AR1
        LARK    AR1,2
NEXT    SAR     AR1,60h
        LAC     60h
        SUBK    1
        CALL    SIGN
        BANZ    NEXT,*-
END     B       END
