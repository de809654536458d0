INNER .macro n
 LACK n
 .endm
OUTER .macro n
 INNER n
 .endm
 OUTER 5
 OUTER 256
