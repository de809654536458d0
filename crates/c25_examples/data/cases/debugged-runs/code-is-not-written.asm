* Writes 0 to the word at 5, and would write to the instruction at 3.
        LACK    5
        TBLW    60h
        LACK    3
        TBLW    60h
        NOP
        .word   1234h
