        B       START
        B       TAKEN           ; acts in the step that takes INT0
START   LDPK    0
        LACK    1
        SACL    4               ; IMR: INT0
        EINT
WAIT    IDLE                    ; no step counts while it waits
        B       WAIT
TAKEN   OUT     4,PA1
        EINT
        RET
