        .ref    FIR,DELAY
        .def    GAIN
        .sect   "gain"
GAIN    .word   2
X       .usect  "vars",1
        .text
NEXT    LDPK    X
        IN      X,PA2
        LAC     X
        LDPK    DELAY
        SACL    DELAY           ; the newest sample
        CALL    FIR
        LDPK    X
        SACL    X
        OUT     X,PA3
        B       NEXT
