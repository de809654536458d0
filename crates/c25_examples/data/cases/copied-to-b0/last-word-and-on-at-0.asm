 B GO
X LACK 1
GO LRLK AR1,2FFh
 LARP 1
 BLKP L,*
 CNFP
 B R
 .sect "fast"
 .label L
R NOP
