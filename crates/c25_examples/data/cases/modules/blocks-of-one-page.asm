 .bss A,5
 .bss X,128,7
 .bss Y,0,0
Z .usect "v",3
 .bss Q,1,X-A
