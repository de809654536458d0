 .asg 9,foo
P .macro x,k,x
 .asg 3,x
 .asg 8,foo
x? .word x,k,foo
 .string "x:x:"
 .endm
p .set 2
 P 4,p,5
 .word foo
