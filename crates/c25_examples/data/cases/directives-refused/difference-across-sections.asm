A .word A-B
 .sect "s"
B NOP
