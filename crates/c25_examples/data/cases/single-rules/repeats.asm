        RPTK    3
        IDLE
        RPTK    3
        RPTK    3
        NOP
L       B       L
