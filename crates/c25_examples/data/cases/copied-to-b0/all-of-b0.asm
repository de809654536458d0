 LRLK AR1,200h
 LARP 1
 RPTK 255
 BLKP L,*+
 CNFP
 LARK AR2,3
 B R
 .sect "fast"
 .label L
R ZAC
 .loop 251
 ADDK 1
 .endloop
 SACL 60h
 OUT 60h,PA0
 B R
