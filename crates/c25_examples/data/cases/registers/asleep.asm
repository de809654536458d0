        B       START
        B       TICK            ; INT0
START   LACK    1
        SACL    4               ; IMR: lets INT0 through
        IDLE
        B       0
TICK    OUT     4,PA0
        RET
