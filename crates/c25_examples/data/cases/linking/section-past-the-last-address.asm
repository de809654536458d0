 .sect "hi"
 NOP
 NOP
