MEMORY { A : o = 0, l = 4
         B : o = 8, l = 4
         PAGE 1 : D : o = 300h, l = 100h }
SECTIONS { .text : > 1 }
