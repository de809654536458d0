k .set 6
 .asg 1,k
 .asg 7,u
 .asg ,e
 .string ":v:k:",":v::k:"
 .word ':k:'
 .word e:e:k:e:
