R NOP
 .label L
 .word R-L
