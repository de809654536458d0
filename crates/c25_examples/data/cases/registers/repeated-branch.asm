        LACK    9
        RPTK    2
        B       0
