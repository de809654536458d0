 .asg 1,k
 .asg k,k
 .asg "k:k:,",j ; k,k
 .asg k+k,k
 .word k
