 .if 0
X .set 1
 .endif
X .set 2
X .set 3
