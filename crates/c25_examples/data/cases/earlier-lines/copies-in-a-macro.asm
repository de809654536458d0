TABLE .macro
 .copy "gone.inc"
 .endm
 NOP
 TABLE
