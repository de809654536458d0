 .copy "macro.inc"
 P
 NOP
