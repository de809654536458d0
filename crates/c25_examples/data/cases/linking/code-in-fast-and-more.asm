 .sect "fast"
 NOP
 NOP
R B R
 .text
 .word 1
 .sect "more"
 .word 2
