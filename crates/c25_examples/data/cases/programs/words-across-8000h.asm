 .loop 4
 .word 1,2,3,4
 .endloop
