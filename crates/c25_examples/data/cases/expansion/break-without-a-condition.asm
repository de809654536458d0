 .loop
 NOP
 .break
 .endloop
 ZAC
