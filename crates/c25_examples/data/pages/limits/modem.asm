        .def    START
        .sect   "vectors"
        B       START
        .sect   ".coeff"
TABLE   .word   11h,22h,33h
N       .set    $-TABLE
        .bss    COEFFS,N
        .text
START   LRLK    AR1,COEFFS
        LARP    AR1
        RPTK    N-1
        BLKP    TABLE,*+
        LDPK    COEFFS
        OUT     COEFFS+2,PA0
        IDLE
