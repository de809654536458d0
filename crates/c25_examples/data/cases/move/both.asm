        DATA    1
        .word   2
