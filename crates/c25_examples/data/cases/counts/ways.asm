        BNZ     START           ; passes, to the vector of INT0
        BZ      START           ; taken at the start, passes in each interrupt
        EINT
        RET
START   LDPK    0
        LARP    AR1
        LACK    1
        SACL    4               ; IMR: INT0
        EINT
WAIT    BIOZ    LOW             ; passes while BIO is 1, once before an interrupt
        RPTK    2
        SUBK    0               ; no interrupt comes between its three steps
        B       WAIT
LOW     DINT                    ; after an interrupt
        LARK    AR1,2
TURN    BANZ    TURN,*-
END     B       END
        BNZ     END             ; no run comes here
