 .label L
 .sect "s"
 .label M
 .word M-L
