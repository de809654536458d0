 .asg 1,k
 .loop 2
 .eval k*100,k
 LACK k
 .endloop
 NOP
