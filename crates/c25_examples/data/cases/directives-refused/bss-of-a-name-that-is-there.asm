X .usect "v",1
 .bss X,Q
