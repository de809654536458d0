nop .macro
 .endm
