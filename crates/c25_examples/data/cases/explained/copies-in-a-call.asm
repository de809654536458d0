READ .macro
 .copy "copied.inc"
 .endm
 NOP
 READ
