 B E-1
 .sect "hi"
 NOP
E
