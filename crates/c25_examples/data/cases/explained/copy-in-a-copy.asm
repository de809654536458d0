 NOP
 .copy "copies-a-copy.inc"
 NOP
