 .bss V,2
L CALL V
 BLKP V,*+
 MAC V,*+
 LRLK AR1,V
 B L
