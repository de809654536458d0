 B E
 .sect "hi"
 NOP
E
