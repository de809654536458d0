        RPTK    3
        SFL
        NOP
END     B       END
