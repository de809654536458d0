        .data
T       .word   1,2
U       .word   3
        .text
        LAC     U-T
        LAC     T
L       B       L
