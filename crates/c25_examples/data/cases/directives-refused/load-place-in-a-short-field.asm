 .label L
 LACK L
