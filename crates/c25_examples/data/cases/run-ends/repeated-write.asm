        LACK    0
        RPTK    1
        TBLW    60h
