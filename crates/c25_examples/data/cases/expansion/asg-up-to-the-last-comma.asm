 .asg 1, 2 , C
 .word C
