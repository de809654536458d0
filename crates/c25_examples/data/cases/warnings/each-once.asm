M .macro P
 ADD *+,P
 .endm
 M AR1
 M AR1
 M AR2
 M 3
 .loop 3
 ADD *+,AR1
 .endloop
