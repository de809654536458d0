R NOP
 .label L
 .word L-R
