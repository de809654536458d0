        LARP    AR1
        LARK    AR1,2
TURN    OUT     60h,PA0
        BANZ    TURN,*-
END     B       END
        NOP                     ; no run comes here
