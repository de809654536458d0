 .byte -129
