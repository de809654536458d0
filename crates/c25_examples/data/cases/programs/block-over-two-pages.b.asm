 .bss W,1
 LDPK W
 LAC W
