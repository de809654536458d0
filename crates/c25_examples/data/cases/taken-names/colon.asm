TURN: .macro
 .endm
TURN .macro
 .endm
