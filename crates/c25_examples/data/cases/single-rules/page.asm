page
        NOP
L       B       L
