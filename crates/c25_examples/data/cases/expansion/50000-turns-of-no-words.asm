 .loop 50000
 .space 0
 .endloop
