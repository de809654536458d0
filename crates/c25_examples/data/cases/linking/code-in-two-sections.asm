 NOP
 .sect "a"
 NOP
 NOP
 .sect "b"
 NOP
 NOP
