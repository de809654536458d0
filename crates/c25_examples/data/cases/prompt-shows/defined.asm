        LACK    N
        IDLE
