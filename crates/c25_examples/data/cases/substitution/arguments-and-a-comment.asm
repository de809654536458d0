P .macro x,y
 .string "[:x:]","[:y:]"
 .endm
 P 1, 2 ,3
L P 1 ; , comment
M: P
