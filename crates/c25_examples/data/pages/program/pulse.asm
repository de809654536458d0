        LACK    3
        SACL    60h
NEXT    OUT     60h,PA1
        RPTK    7
        NOP                     ; acts in eight steps
        B       NEXT
