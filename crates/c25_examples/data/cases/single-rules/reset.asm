RESET   B       L
L       B       L
