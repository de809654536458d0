        LACK    1
        TBLW    60h
