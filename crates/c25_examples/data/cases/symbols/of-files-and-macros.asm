* The symbols of a module are named as its source, wherever their lines stand.
        .mmregs
        .copy   "copied.asm"
OWN     NOP
M       .macro
L?      NOP
        .endm
        M
        M
