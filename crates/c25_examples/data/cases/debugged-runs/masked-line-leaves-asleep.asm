        IDLE
S       B       S
