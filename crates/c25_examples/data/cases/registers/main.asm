        .ref    DOUBLE
TWICE   .macro
        SFL
        SFL
        .endm
        LACK    3
        CALL    DOUBLE
        .copy   "put.inc"
        TWICE
STOP    B       STOP
