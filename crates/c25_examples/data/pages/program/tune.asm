        .ref    GAIN
START   LALK    TABLE
        CALL    GAIN
        IDLE
TABLE   .word   0041h,5500h
        .bss    BUFFER,4
