 .asg 0,k
 .loop 65535
 .global N:k:
 .eval k+1,k
 .endloop
X LACK 256
