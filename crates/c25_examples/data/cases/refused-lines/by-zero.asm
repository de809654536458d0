N .set 0
 .if 1/N
 NOP
 .endif
