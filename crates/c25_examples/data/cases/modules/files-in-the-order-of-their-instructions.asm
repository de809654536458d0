 .text
 NOP
 .data
 NOP
 .copy "data.inc"
 .text
 NOP
 .copy "text.inc"
