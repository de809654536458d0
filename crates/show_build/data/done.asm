* Sleeps, and has words of data memory.
        .global DONE
DONE    IDLE
        .data
        .word   1,-1
        .string "ABC"
