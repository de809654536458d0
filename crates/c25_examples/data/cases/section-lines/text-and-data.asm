 NOP
 .data
 .word 1
