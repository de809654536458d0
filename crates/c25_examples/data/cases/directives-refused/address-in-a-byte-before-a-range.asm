X .byte X,256
