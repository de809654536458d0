 .byte 256,Q
