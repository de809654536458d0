 .sect "none"
 .bss SUM,1
 .text
 LALK 300h
 BACC
