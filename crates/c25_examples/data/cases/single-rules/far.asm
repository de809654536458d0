HERE    B       THERE
        NOP
THERE   B       HERE
