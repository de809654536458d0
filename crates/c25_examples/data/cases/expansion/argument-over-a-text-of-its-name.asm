 .asg 1,k
P .macro x,k,x
x? .word x,k
 .string "x:x:"
 .endm
 P 4,6,5
