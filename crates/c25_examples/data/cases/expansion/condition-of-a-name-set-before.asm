X .set 1
 .if X
 NOP
 .endif
