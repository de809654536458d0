 LDPK E
 .sect "hi"
 NOP
E
