 .asg 1,k
 .word k.k
