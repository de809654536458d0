        LARP    AR1
        LARK    AR1,2
NEXT    SAR     AR1,60h
        OUT     60h,PA0
        BANZ    NEXT,*-
        IDLE
