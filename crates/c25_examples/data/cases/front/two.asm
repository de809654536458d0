        LACK    SCALE
        LACK    SCALE+1
        LACK    OTHER
