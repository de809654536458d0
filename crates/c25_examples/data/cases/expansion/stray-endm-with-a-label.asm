L .endm
