 .copy "gains.inc"
SCALE .macro
 NOP
 .endm
