        .word   1
