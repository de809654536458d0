 .asg 1,k
 .asg k
