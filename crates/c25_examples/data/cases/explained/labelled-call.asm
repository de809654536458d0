LOAD .macro n
 LACK n
 .endm
 NOP
HERE LOAD 256
