EMPTY .macro
 NOP
 .mexit
 .endm
 EMPTY
 FOO
