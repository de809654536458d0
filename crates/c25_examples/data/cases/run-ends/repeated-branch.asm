        RPTK    2
        B       0
