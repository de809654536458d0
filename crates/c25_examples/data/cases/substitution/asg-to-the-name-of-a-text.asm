 .asg 1,k
 .asg "k:k:,",k ; k,k
 .string "[:k:]"
