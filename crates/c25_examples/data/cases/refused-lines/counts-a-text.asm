 .loop "3"
 NOP
 .endloop
