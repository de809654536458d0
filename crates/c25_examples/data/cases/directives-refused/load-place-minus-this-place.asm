 .label L
 .word L-$
