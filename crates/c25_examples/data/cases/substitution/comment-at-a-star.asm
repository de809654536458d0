 .asg 1,k
*k :k:
* k?
 .word k ; k :k: k?
