        LACK    1
        RPTK    4
        SFL                     ; acts in five steps
        SACL    60h
        OUT     60h,PA2
END     B       END
