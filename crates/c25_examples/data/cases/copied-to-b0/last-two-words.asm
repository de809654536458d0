 LRLK AR1,2FEh
 LARP 1
 RPTK 1
 BLKP L,*+
 CNFP
 B R
 .sect "fast"
 .label L
R B R
