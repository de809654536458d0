 .if 1
 NOP

