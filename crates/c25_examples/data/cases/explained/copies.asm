 NOP
 .copy "copied.inc"
