L .asg "a"",""b" ,k ; x,y
 .string ":k:"
 .asg ,k
 .string "[:k:]"
 .asg 1,2,k
 .word k
