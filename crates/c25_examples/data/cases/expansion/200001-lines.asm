 .loop 199998
 .space 0
 .endloop
