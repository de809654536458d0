 NOP
 .sect "fast"
