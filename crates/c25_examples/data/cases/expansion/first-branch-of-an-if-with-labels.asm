L .if 1+2
 NOP
 .ELSEIF A ; comment
 B 0
N: .else
 .endif
