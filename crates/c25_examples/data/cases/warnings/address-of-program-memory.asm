 .data
T .word 1,2
 .bss V,2
 .text
 LAC T
 BLKD T+1,*+
 LDPK T
 LAR AR1,T
 LALK T
 BLKP T,*+
 LAC V
