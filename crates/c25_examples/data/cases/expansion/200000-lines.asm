 .loop 199997
 .space 0
 .endloop
