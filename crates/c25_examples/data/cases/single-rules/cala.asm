        LALK    SUB
        CALA
        LACK    1
END     B       END
SUB     LACK    2
        RET
