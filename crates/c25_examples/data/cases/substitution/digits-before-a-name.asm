 .asg 9,h
 .asg 8,b
 .word 5h,11b,h,b
