P .macro n
 .label n
 NOP
 .label q?
 .word q?
 .endm
 .asg L,k
 P A
 P B
 .label k
 .if 0
 .label A
 .endif
X: .label Y
 .LABEL Z ; here
 .word A,B,L,X,Y,Z,Z-A
