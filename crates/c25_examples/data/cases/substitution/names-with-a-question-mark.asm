k_01 .set 5
 .asg 1,k
 .asg 9,foo
k? .set 2
foo? .set 3
 .word foo?,k?:k:,k?
