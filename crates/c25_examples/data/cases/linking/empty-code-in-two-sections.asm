 NOP
 .sect "a"
 .text
 .sect "b"
 NOP
 NOP
