 .asg 1,n
 .eval ,n
