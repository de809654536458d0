 NOP
 .sect "t"
 .word 1,2,3,4,5
