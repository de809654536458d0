        IDLE
        NOP
