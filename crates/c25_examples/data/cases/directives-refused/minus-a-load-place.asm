 .label L
 .word -L
