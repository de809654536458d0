 .sect "fast"
 .label L
R NOP
E .word R
