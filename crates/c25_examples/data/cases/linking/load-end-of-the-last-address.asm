 .text
 .word E
 .sect "fast"
R NOP
 .label E
