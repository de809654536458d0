 .label L
 .word 1-L
