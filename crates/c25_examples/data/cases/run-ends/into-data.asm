        ABS
        .word   5500h
