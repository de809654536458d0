        B       START
        B       TAKEN
START   LDPK    0
        LACK    1
        SACL    4               ; IMR: INT0
        EINT
        NOP                     ; EINT lets one instruction through
        NOP
END     B       END
TAKEN   EINT
        DINT                    ; before another interrupt is taken
        B       END
