 .label L
 .byte L
