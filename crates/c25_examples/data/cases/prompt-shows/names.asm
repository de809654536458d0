N       .set    10
        .bss    X,4
        .text
START   LDPK    X
        LACK    N
        SACL    X
        LACK    N*2
        SACL    X+2
DONE    B       DONE
