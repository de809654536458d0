        .space  32*16
L       LALK    L
        BACC
        NOP
        B       L
