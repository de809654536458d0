 NOP
 .end
 ZAC
 .endif
