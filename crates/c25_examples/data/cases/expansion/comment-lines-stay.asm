 .asg 1,k
 .asg 5,word
 .asg 9,foo
 .asg b+a,a
 .asg c,b
 .asg a+1,c
 .asg ,e
* k :k:
; k
