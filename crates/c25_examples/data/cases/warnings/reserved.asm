 .bss V,1
 LAC V
