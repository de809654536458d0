 .loop 32768
 B 0
 .endloop
