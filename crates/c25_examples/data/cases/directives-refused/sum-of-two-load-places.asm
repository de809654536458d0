 .label L
 .word L+L
