        .bss    SUM,1
        .text
        LDPK    SUM
        LACK    1
        SACL    SUM
NEXT    LACK    2
END     B       END
