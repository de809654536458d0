 NOP
 .sect "fast"
R B R
