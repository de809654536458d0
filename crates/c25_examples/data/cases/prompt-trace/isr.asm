        B       START
        B       TICK
START   LACK    1
        SACL    4
WAIT    IDLE
        B       WAIT
        NOP
TICK    EINT
        RET
