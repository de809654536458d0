 .bss COUNT,2
TOTAL .usect "sums",1
 .bss TOTAL,1
