        .def    MORE
        .bss    SUM,1
        .text
START   LDPK    SUM
        ZAC
        CALL    MORE
DONE    B       DONE
MORE    ADDK    5
        SACL    SUM
        RET
