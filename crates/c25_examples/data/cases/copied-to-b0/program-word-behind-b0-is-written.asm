 LALK 1234h
 SACL 60h
 LALK R
 TBLW 60h
 TBLR 61h
 OUT 61h,PA0
 LALK L
 TBLW 60h
 NOP
 .sect "fast"
 .label L
R NOP
