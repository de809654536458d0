 LACK 44h
 TBLW 60h
 .sect "fast"
R LACK 9
 SACL 60h
 OUT 60h,PA0
S B S
