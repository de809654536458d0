 NOP
 .sect "e"
