M: .macro
 NOP
 .mexit
 ZAC
 .endm
 M
