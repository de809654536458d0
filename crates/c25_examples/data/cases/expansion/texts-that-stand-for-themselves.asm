 .asg 2*b,a
 .asg a+1,b
 .eval 3,b
 .word a
