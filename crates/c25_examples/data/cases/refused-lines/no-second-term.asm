 .asg 1,n
 .eval 1+,n
 NOP
