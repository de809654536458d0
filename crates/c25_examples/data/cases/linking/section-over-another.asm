 NOP
 NOP
 .sect "b"
 NOP
