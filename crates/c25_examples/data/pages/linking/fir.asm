        .def    FIR,DELAY
        .ref    GAIN
TAPS    .set    4
DELAY   .usect  "delay",TAPS+1
Y       .usect  "delay",1
        .text
FIR     LARP    AR1
        LRLK    AR1,DELAY+TAPS-1
        MPYK    0
        ZAC
        RPTK    TAPS-1
        MACD    COEFS,*-        ; from the oldest sample to the newest
        APAC
        SACL    Y
        LDPK    GAIN
        LT      GAIN
        LDPK    Y
        MPY     Y
        PAC
        RET
        .data
COEFS   .word   4,3,2,1
