 LAC E
 .sect "hi"
 NOP
E
