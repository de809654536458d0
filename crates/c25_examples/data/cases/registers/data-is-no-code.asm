        NOP
        .word   5500h           ; NOP's word, and no instruction
