 .global L,X
 .sect "fast"
 .label L
R LACK 9
 SACL 60h
 .label E
X .set L+1
Y .equ E-L
 .text
 BLKP L,*+
 LALK E-L
 LALK +L
 .word R,L,X,Y,1+L,L-1
 LDPK L
 LAC L+2,1
