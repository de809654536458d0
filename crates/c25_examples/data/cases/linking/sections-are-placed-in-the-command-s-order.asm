 NOP
 NOP
 .sect "b"
 NOP
 .sect "c"
 NOP
