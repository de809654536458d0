 .asg Y,n
 .if :n:
 .endif
