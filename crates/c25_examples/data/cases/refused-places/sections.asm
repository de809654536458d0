 .asg 1,n
 .loop 300
 .sect s:n:
 .eval n+1,n
 .endloop
