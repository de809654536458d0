 .loop 3
 NOP
 .break 1
 .endloop
