 .byte *
