 LRLK AR1,200h
 LARP 1
 LALK L
 RPTK E-L-1
 TBLR *+
 CNFP
 B R
 .sect "fast"
 .label L
R LACK 7
 SACL 60h
 OUT 60h,PA1
S B S
 .label E
