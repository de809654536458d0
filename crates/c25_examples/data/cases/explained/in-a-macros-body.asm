LOAD .macro n
 NOP
 LACK n ; the low eight bits
 .endm
 NOP
 LOAD 5
 LOAD 256
