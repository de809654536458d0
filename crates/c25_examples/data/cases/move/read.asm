; Meßgerät, 5 Ω
        .word   1
