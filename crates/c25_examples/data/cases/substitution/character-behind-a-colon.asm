 .asg 1,k
 .string "é:k:é"
