        EINT
WAIT    B       WAIT
