M       .macro
        .bss    A?,100,1
        .endm
        M
        M
        M
