        .word   'A'<<8|'B'
        .space  3*16
TOP     .set    $-1             ; .bes 48 with TOP at its last word
        LRLK    AR1,TOP
        .word   3<<12|5<<4|1    ; fields of 4, 8 and 4 bits
