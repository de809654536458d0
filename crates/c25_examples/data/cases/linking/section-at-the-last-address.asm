 .sect "hi"
 NOP
E
