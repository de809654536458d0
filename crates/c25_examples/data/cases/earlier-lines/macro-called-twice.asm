WAIT .macro n
LOOP RPTK n
 NOP
 .endm
 WAIT 3
 WAIT 4
