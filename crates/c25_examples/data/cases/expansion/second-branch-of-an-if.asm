 .if 0
 NOP
L: .elseif 1
 ZAC
 .else
 B 0
 .endif
