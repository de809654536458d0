 .label L
 LAC 5,L
