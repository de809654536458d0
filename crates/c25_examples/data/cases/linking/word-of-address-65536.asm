 .word E
 .sect "hi"
 NOP
E
