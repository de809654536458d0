 .copy "word.inc"
 NOP
