 .if X
 NOP
 .endif
X .set 1
