P .macro x,y,z
 .string ":x:",":y:"
 .endm
Q .macro x,y,z
 .word x,':y:'
 .endm
 P "," ,"a"",""b",c
L P ";","'"
M Q ',',"a","b"
