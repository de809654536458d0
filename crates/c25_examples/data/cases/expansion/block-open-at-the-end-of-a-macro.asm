P .macro
 .if 1
 .endm
 P
