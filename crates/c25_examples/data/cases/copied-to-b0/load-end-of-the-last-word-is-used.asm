 .sect "fast"
R NOP
 .label E
 .text
 .word E
