        B       START
        B       TAKEN           ; INT0
START   EINT                    ; but IMR is 0
WAIT    B       WAIT
TAKEN   RET
