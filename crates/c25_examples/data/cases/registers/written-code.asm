        LACK    2
        TBLW    60h
        NOP
