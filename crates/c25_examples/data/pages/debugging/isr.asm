        B       START           ; 0: reset
        B       TICK            ; 2: INT0
START   LACK    1
        SACL    4               ; IMR: lets INT0 through
WAIT    IDLE
        B       WAIT
TICK    EINT
        RET
