 .text
 .word E
 .sect "fast"
R NOP
E
