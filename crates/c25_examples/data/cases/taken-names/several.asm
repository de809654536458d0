 .if 0
DELAY .macro
 .endm
 .endif
DELAY .MACRO
 .endm
delay .macro
 .endm
DELAY .macro n
 .endm
DELAY .macro
 .endm
