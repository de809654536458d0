 B 0
 .data
 .word 1
