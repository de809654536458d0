 .bss U,100
 .bss V,100
 LDPK V
 LAC V
