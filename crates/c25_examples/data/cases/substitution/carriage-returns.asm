P .macro a
 .word a
L? .word L?
 .endm
 P 1,2,3
 P 4
