 .asg 2,k
 .loop 2
 .eval k-1,k
 .if 1/k
 NOP
 .endif
 .endloop
