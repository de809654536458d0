 .sect "fast"
 NOP
 NOP
