        LARP    AR2
        LARK    AR2,7
        LACK    65
        SACL    60h
        LT      60h
        MPYK    -3
        APAC                    ; 65 - 195
        OUT     60h,PA1
        SXF
        RPTK    3
        SFL
NEXT    MAR     *+
        B       NEXT
