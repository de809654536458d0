WAIT    B       WAIT
