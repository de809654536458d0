 NOP
 .sect "fast"
 NOP
 NOP
R B R
