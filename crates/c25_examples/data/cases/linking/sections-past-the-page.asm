 .space 1048560
 .sect "b"
 NOP
 NOP
