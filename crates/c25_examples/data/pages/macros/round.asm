FIRST   .macro  a,b
        .word   a
        .endm
        FIRST   (7,8),9         ; a is (7
