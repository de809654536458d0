 B 0
 .sect "b"
 NOP
 NOP
 NOP
 .sect "c"
 NOP
 .bss X,4
