        .def    START
        .bss    COUNT,1
        .sect   "vectors"
        B       START
        B       TICK            ; INT0
        .text
START   LDPK    0
        LACK    1               ; let INT0 through:
        SACL    4               ; IMR
        LDPK    COUNT
        ZAC
        SACL    COUNT
        EINT
WAIT    IDLE
        B       WAIT
TICK    LAC     COUNT
        ADDK    1
        SACL    COUNT
        OUT     COUNT,PA0
        EINT
        RET
