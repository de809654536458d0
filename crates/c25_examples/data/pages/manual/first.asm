        LDPK    X               ; the data page of X
        LACK    65
        SACL    X
        OUT     X,PA1           ; to port 1
STOP    B       STOP
        .bss    X,1
