 LALK E-20000h
 .sect "fast"
E NOP
