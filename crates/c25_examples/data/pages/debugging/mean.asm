* The mean of four samples of port 0, to port 1.
        .def    NEXT,SHOW
        .bss    X,1
        .bss    SUM,1
        LDPK    X
        ZAC
        SACL    SUM
        LARK    AR1,4           ; so many (wrong, as is seen below)
        LARP    AR1
NEXT    IN      X,PA0
        LAC     SUM
        ADD     X
        SACL    SUM
        BANZ    NEXT,*-
SHOW    LAC     SUM,14          ; a quarter, in the high half
        SACH    X
        OUT     X,PA1
        IDLE
