 .endm A
