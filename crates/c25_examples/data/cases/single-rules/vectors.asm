RESET   .space  30*16
        B       L
        NOP                     ; word 32
L       B       L
