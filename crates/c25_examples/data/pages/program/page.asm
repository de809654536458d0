        .mmregs
SUM     .usect  "first",1       ; page 4
COUNT   .usect  "second",1      ; page 6
        .text
        B       START
        B       TICK            ; INT0
START   LDPK    0
        LACK    1
        SACL    IMR
        LDPK    SUM
        EINT
LOOP    ADD     SUM
        B       LOOP
TICK    LAC     COUNT           ; LDPK COUNT is forgotten
        EINT
        RET
