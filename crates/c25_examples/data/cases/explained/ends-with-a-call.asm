STOP .macro
 FOO
 .endm
 STOP