 .asg 1,k
 .eval k,k,k ; ",
