 .asg 3,k
 .loop k
 .word k
 .eval k-1,k
 .break k=0
 .endloop
