ENTER .macro name
 .sect name
 .endm
 .asg 1,n
 .loop 300
 ENTER s:n:
 .eval n+1,n
 .endloop
