a .set 3
a1 .set 4
 .asg 1,k
 .asg b+a,a
 .asg c,b
 .asg "a+1",c
 .word a
 .word a:k:
 .string "a:a:"
