WAIT    .macro  n
        LARK    AR2,n
W?      BANZ    W?,*-
        .endm
        LARP    AR2
        WAIT    3
        WAIT    5
