 .sect "fast"
R NOP
E
 .text
 .word E
