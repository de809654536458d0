 NOP
 .word 5500h
