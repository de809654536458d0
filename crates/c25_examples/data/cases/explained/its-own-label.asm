 NOP
X: .space X+16 ; X is this line's own label
