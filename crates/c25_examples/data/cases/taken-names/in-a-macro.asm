MAKE .macro
TURN .macro
 NOP
 .endm
 .endm
 MAKE
 MAKE
