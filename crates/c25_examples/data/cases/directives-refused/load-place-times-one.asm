 .label L
 .word L*1
