M .macro A,B,C
 .word A
 .endm
 M 1,2
 M 'x
