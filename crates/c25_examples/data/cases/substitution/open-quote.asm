 .asg 1,k
 .string "k
