* Sleeps at 3, until INT0 wakes it; the vector branches to TICK.
        B       START
        B       TICK
START   LACK    1
        SACL    4
        EINT
WAIT    IDLE
        B       WAIT
TICK    EINT
        RET
