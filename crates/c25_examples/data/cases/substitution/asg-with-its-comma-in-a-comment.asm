 .asg 1,k
L .asg k;,k
